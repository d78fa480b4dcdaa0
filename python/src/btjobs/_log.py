"""A log as text, and back: a line with the numbers of the run, lines of remarks that begin with #, and a line for each event."""
from ._game import Settings
from ._library import Error, log_of, log_text


def write_log(file, settings, workers, log, about=""):
    """Writes a log to a text file; `about` are lines of remarks."""
    head, events = log_text(settings, workers, log).decode().split("\n", 1)
    file.write(head + "\n" + "".join(f"# {line}\n" for line in about.splitlines()) + events)


def read_log(file):
    """Returns the settings, the number of workers, and the events of a text file. Raises an Error with the first line that is none."""
    text = file.read()
    read = log_of(text.encode())
    if isinstance(read, int):
        raise Error(f"not a line of a btjobs log: {''.join(text.split(chr(10))[read - 1:read])}")
    n, log = read
    settings = Settings(frames=n["frames"], agents=n["agents"], bands=n["bands"], most_questions=n["most_questions"], slots=n["slots"], started=n["large"],
                        running=n["small"])
    return settings, n["workers"], log
