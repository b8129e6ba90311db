"""The service process of a daemon: messages in, as many lines out."""

import os
import select
import subprocess
import time

PATIENCE = 30.0  # seconds without a line, after which a service is taken for dead


class ServiceGone(Exception):
    """The service died, or gives no answer any more."""


class Service:
    def __init__(self, program):
        # A session of its own: a Ctrl-C at the daemon's terminal is for the daemon, which ends the service when all is answered.
        try:
            self._process = subprocess.Popen([program], stdin=subprocess.PIPE, stdout=subprocess.PIPE, bufsize=0, start_new_session=True)
        except OSError as e:
            raise ServiceGone(f"{program} cannot be run: {e.strerror}") from e
        self.pid = self._process.pid
        self._in, self._out = self._process.stdin.fileno(), self._process.stdout.fileno()
        os.set_blocking(self._in, False)
        os.set_blocking(self._out, False)
        self._poll = select.poll()
        self._poll.register(self._out, select.POLLIN)

    def ask(self, messages):
        """The lines for these messages. Writing and reading take turns as the pipes allow, so neither side can wait for the other."""
        data, got, lines = memoryview(b"".join(messages)), b"", 0
        since = time.monotonic()
        try:
            while lines < len(messages):
                if data:
                    data = self._write(data)
                if not self._poll.poll(0 if data else 1000):
                    if time.monotonic() - since > PATIENCE:
                        raise ServiceGone(f"the service gave no answer for {PATIENCE:.0f} seconds")
                    if data:
                        select.select((), (self._in,), (), 1)
                    continue
                more = os.read(self._out, 65536)
                if not more:
                    raise ServiceGone("the service has ended")
                got += more
                lines += more.count(b"\n")
                since = time.monotonic()
        except OSError as e:
            raise ServiceGone(f"the service has ended: {e.strerror}") from e
        answers = got.decode("ascii", "replace").split("\n")
        if answers.pop() or len(answers) != len(messages):
            raise ServiceGone("the service gave something that is no answer")
        return answers

    def _write(self, data):
        try:
            return data[os.write(self._in, data) :]
        except BlockingIOError:
            return data

    def end(self):
        """Ends its input and waits for its end."""
        self._process.stdin.close()
        try:
            self._process.wait(5)
        except subprocess.TimeoutExpired:
            self._process.kill()
            self._process.wait()
        self._process.stdout.close()

    def kill(self):
        self._process.kill()
        self.end()
