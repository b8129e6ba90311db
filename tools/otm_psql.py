"""psql as a driver: statements in, rows out, with nothing installed but PostgreSQL's own client."""

import os
import select
import subprocess
import time

MARK = "@otm@"
APART = "\x1f"  # stands between two columns


class SqlError(Exception):
    """The server refused a statement; `state` is its SQLSTATE."""

    def __init__(self, state, words):
        self.state = state
        super().__init__(words)


class ServerGone(Exception):
    """The connection ended, or gave no answer in time, or warned: what became of the last statement is not known."""


class Psql:
    """One session. `database` is what psql takes behind -d: a name, a connection string or a URI."""

    def __init__(self, database, patience=30.0):
        self._patience, self._held = patience, b""
        command = [os.environ.get("PSQL", "psql"), "-XqAtw", "-F", APART, "-v", "VERBOSITY=terse", "-d", database]
        try:
            self._process = subprocess.Popen(command, stdin=subprocess.PIPE, stdout=subprocess.PIPE, stderr=subprocess.STDOUT,
                                             bufsize=0, start_new_session=True)
        except OSError as e:
            raise ServerGone(f"psql cannot be run: {e.strerror}") from None
        self._poll = select.poll()
        self._poll.register(self._process.stdout, select.POLLIN)
        try:
            self.run("SET client_min_messages = warning")
        except BaseException:
            self.close()
            raise

    def run(self, sql):
        """The rows of a statement, each a list of texts."""
        try:
            self._process.stdin.write(f"{sql};\n\\echo {MARK} :SQLSTATE\n".encode())
        except (OSError, ValueError):
            pass  # its last words say why
        rows, until = [], time.monotonic() + self._patience
        while True:
            line = self._line(until, rows)
            if line.startswith(MARK):
                break
            rows.append(line)
        state = line[len(MARK) :].strip()
        if not state:  # psql has lost the server
            raise ServerGone(" ".join(rows))
        if state != "00000":
            raise SqlError(state, " ".join(rows))
        for line in rows:
            # 'canceling wait for synchronous replication' is a warning, and the statement counts as done.
            if line.startswith("WARNING:"):
                raise ServerGone(line)
        return [line.split(APART) for line in rows]

    def _line(self, until, before):
        while b"\n" not in self._held:
            if not self._poll.poll(1000 * max(0.0, until - time.monotonic())):
                raise ServerGone(f"PostgreSQL gave no answer for {self._patience:.0f} seconds")
            more = os.read(self._process.stdout.fileno(), 65536)
            if not more:
                words = " ".join([*before, self._held.decode("utf-8", "replace")]).strip()
                raise ServerGone(f"the connection to PostgreSQL has ended: {words or 'no reason was told'}")
            self._held += more
        line, self._held = self._held.split(b"\n", 1)
        return line.decode("utf-8", "replace")

    def close(self):
        """Ends the session. One that still waits for the server is killed, so that its connection is gone when this returns."""
        try:
            self._process.stdin.close()
        except OSError:
            pass
        try:
            self._process.wait(1)
        except subprocess.TimeoutExpired:
            self._process.kill()
            self._process.wait()
        self._process.stdout.close()
