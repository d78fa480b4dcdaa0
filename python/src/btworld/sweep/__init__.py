"""Sweeps: many games of one level, on many processors or machines. `python3 -m btworld.sweep --help` says how."""
from .plan import Plan, judge_of, play, policy_of
from .results import ResultsError, digest_of, summary_of

__all__ = ["Plan", "ResultsError", "digest_of", "judge_of", "play", "policy_of", "summary_of"]
