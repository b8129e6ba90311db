"""What the tests share: counting, folders that go, daemons that are ended, the journal read back."""

import os
import re
import resource  # noqa: F401  used by several modules
import shutil
import signal
import socket
import subprocess
import sys
import tempfile
import time
from pathlib import Path

ROOT = Path(__file__).resolve().parent.parent.parent
OTM = ROOT / "tools" / "otm"
SERVICE = os.environ.get("OTM_SERVICE") or str(ROOT / "target" / "bin" / "service")
FULL = "--full" in sys.argv
FOLDER = Path(tempfile.mkdtemp(prefix="otm-daemon-"))
# The daemons of the tests share what Python compiles, and leave none of it in the project.
ENVIRONMENT = dict(os.environ, OTM_SERVICE=SERVICE, PYTHONPYCACHEPREFIX=str(FOLDER / "compiled"))
ENVIRONMENT.pop("PYTHONDONTWRITEBYTECODE", None)
sys.path.insert(0, str(ROOT / "tools"))

import otm_file  # noqa: E402
from otm_journal import paired  # noqa: E402
from otm_script import parse_line, show  # noqa: E402, F401

from delphrimock import Call, Coordinator, Refused, ServiceEnded, TimedOut, read_body  # noqa: E402, F401

passed = failed = 0
TESTS, LASTING, left_out, _started = [], [], [], []
_count = 0


def test(f):
    TESTS.append(f)
    return f


def hold(what, good, seen=""):
    global passed, failed
    if good:
        passed += 1
    else:
        failed += 1
        print(f"not so: {what}" + (f"\n    seen: {seen}" if seen != "" else ""), flush=True)


def make(*command):
    done = subprocess.run(command, cwd=ROOT, stdout=subprocess.PIPE, stderr=subprocess.STDOUT, text=True)
    if done.returncode:
        print("\n".join(done.stdout.splitlines()[-20:]))
        print(f"This failed: {' '.join(map(str, command))}")
        print("0 passed, 1 failed")
        leave()
        sys.exit(1)


def clear():
    """Ends what a test started and did not end."""
    while _started:
        _started.pop().kill()


def leave():
    """Ends what outlived its test, and takes away all files."""
    clear()
    while LASTING:
        LASTING.pop().stop()
    shutil.rmtree(FOLDER, ignore_errors=True)


def folder():
    global _count
    _count += 1
    path = FOLDER / str(_count)
    path.mkdir()
    return path


def wait_for(condition, seconds=20):
    end = time.monotonic() + seconds
    while not condition():
        if time.monotonic() > end:
            return False
        time.sleep(0.002)
    return True


class Running:
    """A daemon: its process, what it says, and its journal."""

    def __init__(self, where=None, journal=None):
        self.folder = where or folder()
        self.socket = str(self.folder / "s")
        self.journal = str(journal or self.folder / "j")
        self.log = self.folder / "log"
        self.log.touch()
        self._begins = self.log.stat().st_size
        _started.append(self)

    def said(self):
        return self.log.read_bytes()[self._begins :].decode("utf-8", "replace")

    def up(self):
        """Waits until it listens; False if it ended instead."""
        if not wait_for(lambda: "listening at" in self.said() or self.ended()):
            raise RuntimeError(f"the daemon does not start: {self.said()}")
        return "listening at" in self.said()

    def service(self):
        """The process of its service."""
        return int(re.findall(r"service (\d+) is ready", self.said())[-1])

    def client(self, timeout=20):
        return Coordinator(self.socket, timeout=timeout)

    def raw(self):
        s = socket.socket(socket.AF_UNIX)
        s.settimeout(20)
        s.connect(self.socket)
        return s

    def messages(self):
        return messages(self.journal)


class Daemon(Running):
    """The command itself: otm serve."""

    def __init__(self, *words, where=None, journal=None, program=None):
        super().__init__(where, journal)
        with open(self.log, "ab") as log:
            self.process = subprocess.Popen(
                [sys.executable, "-S", OTM, "serve", "--socket", self.socket, "--journal", self.journal, *words],
                stderr=log, stdin=subprocess.DEVNULL, start_new_session=True, env=dict(ENVIRONMENT, OTM_SERVICE=program or SERVICE))
        self.pid = self.process.pid

    def ended(self):
        return self.process.poll() is not None

    def end(self, number=signal.SIGTERM):
        """Sends a signal and gives the status."""
        self.process.send_signal(number)
        return self.wait()

    def wait(self):
        return self.process.wait(20)

    def kill(self):
        if self.process.poll() is None:
            self.process.kill()
            self.process.wait()


class Forked(Running):
    """The same in a fork of this process, in which a function may have changed something; much faster to start."""

    def __init__(self, change=None, where=None, journal=None, options=(), program=None):
        super().__init__(where, journal)
        import otm_options
        import otm_serve

        words = ["--socket", self.socket, "--journal", self.journal, *options]
        self._status = None
        sys.stdout.flush()
        self.pid = os.fork()
        if self.pid == 0:
            status = 70
            try:
                fd = os.open(self.log, os.O_WRONLY | os.O_APPEND)
                os.dup2(fd, 2)
                sys.stderr = os.fdopen(2, "w", closefd=False)
                if change:
                    change()
                status = otm_serve.serve(otm_options.read_options(words), program or SERVICE)
            except BaseException:
                import traceback

                traceback.print_exc()
                sys.stderr.flush()
            finally:
                os._exit(status)

    def ended(self):
        if self._status is None:
            pid, status = os.waitpid(self.pid, os.WNOHANG)
            if pid:
                self._status = os.waitstatus_to_exitcode(status)
        return self._status is not None

    def wait(self):
        if not wait_for(self.ended):
            raise RuntimeError(f"the daemon does not end: {self.said()}")
        return self._status

    def end(self, number=signal.SIGTERM):
        os.kill(self.pid, number)
        return self.wait()

    def kill(self):
        if not self.ended():
            os.kill(self.pid, signal.SIGKILL)
            wait_for(self.ended)


def messages(path):
    """The messages of a journal with their answers, None where one has none."""
    return [(m, line) for _, m, line in paired(otm_file.read(path))]


def plain(stream):
    """What a service by itself says to these messages."""
    done = subprocess.run([SERVICE], input=b"".join(stream), stdout=subprocess.PIPE)
    return done.stdout.decode().splitlines()


def say(line):
    """The message of a line of a script."""
    return parse_line(line).message


def otm(*words, given=b""):
    done = subprocess.run([sys.executable, "-S", OTM, *map(str, words)], input=given, capture_output=True, env=ENVIRONMENT)
    done.out, done.err = done.stdout.decode(), done.stderr.decode()
    return done


# A script that uses every kind of message, and what each of its calls is answered when nothing happens.
STORY = """\
open 1 floors 0 0 -> ok
begin 0,1 -> begin 1
begin 0,1 -> begin 2
begin 0 -> begin 3
abort 3 -> ok
ticket 1 site 0 = 1 -> ok
ticket 2 site 0 = 2 -> ok
ticket 2 site 1 = 1 -> ok
ticket 1 site 1 = 2 -> ok
prepared 1 site 0 -> ok
prepared 1 site 1 -> ok
prepared 2 site 0 -> ok
prepared 2 site 1 -> ok
decide 1 -> commit 1
order -> order 1
propose 1 -> good
decide 2 -> cycle 2
begin 1 -> begin 4
ticket 4 site 1 = 3 -> ok
prepared 4 site 1 -> ok
decide 4 -> commit 4
order -> order 1 4
forget 1 -> ok
sweep -> swept 1
order -> order
"""
STEPS = [parse_line(line) for line in STORY.splitlines()]
