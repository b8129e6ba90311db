"""A coordinator that outlives its processes: `otm serve` with its journal, in a folder of one's own."""

import contextlib
import os
import subprocess
import sys
import tempfile
import time
from pathlib import Path

from .coordinator import ROOT, SERVICE, Coordinator, ServiceEnded
from .processes import kill


class Daemon:
    def __init__(self, folder, sync):
        self.socket, self.journal, self.log = folder / "socket", folder / "journal", folder / "log"
        self.process, self.sync = None, sync

    def start(self):
        words = [sys.executable, "-B", str(ROOT / "tools" / "otm"), "serve", "--socket", str(self.socket), "--journal", str(self.journal)]
        words += ["--sync", self.sync]
        with open(self.log, "ab") as log:
            self.process = subprocess.Popen(words, stdin=subprocess.DEVNULL, stdout=log, stderr=log, env={**os.environ, "OTM_SERVICE": SERVICE})
        end = time.monotonic() + 30
        while True:
            with contextlib.suppress(OSError, ServiceEnded):
                if self.socket.is_socket():
                    self.connect().close()
                    return
            if self.process.poll() is not None or time.monotonic() > end:
                raise RuntimeError(f"the daemon did not start: {self.log.read_text()[-800:]}")
            time.sleep(0.01)

    def connect(self):
        return Coordinator(self.socket, timeout=60)

    def kill(self):
        """The daemon and its service."""
        kill(self.process)

    def stop(self):
        if self.process and self.process.poll() is None:
            self.process.terminate()
            try:
                self.process.wait(20)
            except subprocess.TimeoutExpired:
                self.kill()


@contextlib.contextmanager
def daemon(sync="answers"):
    """A daemon with an open table of two sites, and nothing left of it at the end."""
    with tempfile.TemporaryDirectory(prefix="otm-") as folder:
        one = Daemon(Path(folder), sync)
        try:
            one.start()
            with one.connect() as c:
                c.open(first=1, floors=[0, 0])
            yield one
        finally:
            one.stop()
