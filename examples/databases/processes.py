"""Ending processes that were started here, each by its id."""

import contextlib
import glob
import os
import signal
import time
from pathlib import Path


def kill(process):
    """Kills it and all that it has started, at once and without a word, and waits until they are gone."""
    ids = [process.pid]
    for path in glob.glob(f"/proc/{process.pid}/task/*/children"):
        ids += [int(word) for word in Path(path).read_text().split()]
    for one in ids:
        with contextlib.suppress(ProcessLookupError):
            os.kill(one, signal.SIGKILL)
    process.wait()
    while any(map(runs, ids)):
        time.sleep(0.01)


def runs(one):
    """A process that is dead and not yet waited for by whoever inherited it does not run."""
    try:
        return Path(f"/proc/{one}/stat").read_text().rpartition(")")[2].split()[0] not in "ZX"
    except (FileNotFoundError, ProcessLookupError):
        return False


def doomed(work):
    """Runs `work` in a process that must not come to its end: it is killed, by itself, where `work` says so."""
    child = os.fork()
    if child == 0:
        try:
            work(lambda: os.kill(os.getpid(), signal.SIGKILL))
        finally:
            os._exit(1)
    _, status = os.waitpid(child, 0)
    if not os.WIFSIGNALED(status) or os.WTERMSIG(status) != signal.SIGKILL:
        raise RuntimeError("the process that was to be killed came to its end")
