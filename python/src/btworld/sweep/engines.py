"""Where the games of a sweep are played: processes of this machine, or the workers of a Dask cluster."""
from __future__ import annotations

import signal
import sys
from concurrent.futures import FIRST_COMPLETED, Future, ProcessPoolExecutor, wait
from concurrent.futures.process import BrokenProcessPool
from importlib import import_module
from itertools import islice
from typing import Any, Iterable, Iterator, Sequence

from .plan import Plan, play

Batches = Iterable[Sequence[int]]
# So many times in a row a pool may break before any batch is done.
MOST_BREAKS = 5


def here(plan: Plan, batches: Batches) -> Iterator[list[str]]:
    """The lines of each batch, played in this process."""
    for batch in batches:
        yield play(plan, batch)


def over_processes(plan: Plan, batches: Batches, count: int) -> Iterator[list[str]]:
    """The lines of each batch as it is done, by so many processes. If one of them is killed, the pool is replaced, and what it had
    under way is played again."""
    waiting, breaks = iter(batches), 0
    again: list[Sequence[int]] = []
    while True:
        under_way: dict[Future[list[str]], Sequence[int]] = {}
        with ProcessPoolExecutor(count, initializer=signal.signal, initargs=(signal.SIGINT, signal.SIG_IGN)) as pool:
            try:
                while True:
                    again += islice(waiting, max(0, 3 * count - len(under_way) - len(again)))
                    while again:
                        under_way[pool.submit(play, plan, again[-1])] = again[-1]
                        again.pop()
                    if not under_way:
                        return
                    for done in wait(under_way, return_when=FIRST_COMPLETED).done:
                        lines = done.result()
                        del under_way[done]
                        breaks = 0
                        yield lines
            except BrokenProcessPool:
                again += under_way.values()
                breaks += 1
                if breaks > MOST_BREAKS:
                    raise
                print(f"\na process was killed: {len(under_way)} batches are played again", file=sys.stderr, flush=True)
            except BaseException:
                for left in under_way:
                    left.cancel()
                raise


def over_dask(plan: Plan, batches: Batches, scheduler: str) -> Iterator[list[str]]:
    """The lines of each batch as it is done, by the workers of a cluster, on which this package has to be installed. `scheduler` is its
    address, or the path of its scheduler file (.json), which is waited for. What a lost worker had under way Dask gives to another one."""
    distributed: Any = import_module("distributed")
    where = {"scheduler_file": scheduler} if scheduler.endswith(".json") else {"address": scheduler}
    with distributed.Client(**where) as client:
        waiting = iter(batches)

        def submit(batch: Sequence[int]) -> Any:
            return client.submit(play, plan, batch, pure=False, retries=2)

        room = 4 * max(1, sum(client.nthreads().values()))
        running = distributed.as_completed([submit(it) for it in islice(waiting, room)])
        for done in running:
            yield done.result()
            for batch in islice(waiting, 1):
                running.add(submit(batch))
