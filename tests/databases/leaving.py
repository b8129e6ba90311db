"""Nothing is left: no process and no file, also when the work breaks off or is ended from outside. And what is said where a database
is not installed."""

import os
import subprocess
import sys
import tempfile
from pathlib import Path

from held import ROOT, hold

from databases import servers
from databases.coordinator import SERVICE


def running(folder):
    """The processes that work in a folder."""
    found = []
    for path in Path("/proc").glob("[0-9]*/cwd"):
        try:
            if os.readlink(path).startswith(str(folder)):
                found.append(path.parent.name)
        except OSError:
            pass
    return found


def nothing_is_left():
    with tempfile.TemporaryDirectory() as folder:
        os.chmod(folder, 0o755)
        try:
            with servers.started("postgresql", where=folder):
                hold("a server works in its folder", len(running(folder)) > 1)
                raise ZeroDivisionError
        except ZeroDivisionError:
            hold("after an exception nothing runs and nothing is there", (running(folder), os.listdir(folder)) == ([], []))
        child = subprocess.Popen([sys.executable, "-B", ROOT / "examples" / "databases", "crossed", "killed"], stdout=subprocess.PIPE,
                                 stderr=subprocess.DEVNULL, env={**os.environ, "TMPDIR": folder})
        for line in child.stdout:
            if b"killed" in line:  # databases, daemon and service are at work, or will be in a moment
                break
        child.terminate()
        child.stdout.close()
        status = child.wait(60)
        hold("after a SIGTERM nothing runs and nothing is there", status != 0 and (running(folder), os.listdir(folder)) == ([], []),
             (status, running(folder), os.listdir(folder)))


def what_is_missing_is_named():
    try:
        servers.find("no-such-program", ["/no/such/folder"], "a-package")
        hold("a program that is not there", False)
    except servers.Missing as e:
        hold("a program that is not there is told with its package", str(e) == "no-such-program is not installed (Debian: a-package)", e)


WITHOUT = """
import runpy, sys
sys.path.insert(0, "tests/databases")
import held
from databases import servers
def look():
    raise servers.Missing("a-program is not installed (Debian: a-package)")
servers.PostgreSQL.look = staticmethod(look)
runpy.run_path("tests/databases/run", run_name="__main__")
"""


def what_is_left_out_is_said():
    for need, due in (("", 0), ("1", 1)):
        done = subprocess.run([sys.executable, "-B", "-c", WITHOUT], cwd=ROOT, stdout=subprocess.PIPE, text=True,
                              env={**os.environ, "OTM_SERVICE": SERVICE, "OTM_NEED_DATABASES": need})
        lines = done.stdout.splitlines()
        hold(f"without PostgreSQL, OTM_NEED_DATABASES={need or 'not set'}: a line names the package, and {due} failed", done.returncode == due
             and "Left out: all that needs a database. a-program is not installed (Debian: a-package)." in lines
             and lines[-1].endswith(f" passed, {due} failed"), done.stdout[-500:])
