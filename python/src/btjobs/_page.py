"""Orders as a page: one HTML file that needs nothing else."""
import io
import json
from importlib import resources

from ._log import write_log


def _page(settings, workers, title, about, logs, marks, job):
    def text(log):
        out = io.StringIO()
        write_log(out, settings, workers, log)
        return out.getvalue()
    data = {"title": title, "text": about, "workers": workers, "marks": [s.json() for s in marks], "job": job and job.json(),
            "logs": [{"name": name, "log": text(log)} for name, log in logs]}
    page = (resources.files(__package__) / "page.html").read_text(encoding="utf-8")
    return page.replace("/*DATA*/", json.dumps(data).replace("</", "<\\/"), 1)


def page_of_finding(f):
    """Returns the page of a difference: the two orders, of which the two steps that decide are marked."""
    pair = f.verdict == "order"
    logs = [("agrees", f.agreeing_log)] * pair + [("differs", f.differing_log)]
    return _page(f.settings, f.workers, "Two orders", str(f), logs, [f.early, f.late] if pair else [], f.job)


def page_of_log(settings, workers, log, text, job):
    """Returns the page of a log of a run, with what is said of it."""
    return _page(settings, workers, "An order", text, [("log", log)], [], job)
