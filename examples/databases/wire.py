"""What the two clients share: a Unix socket read and written whole, and errors that carry the database's own code."""

import socket


class DatabaseError(Exception):
    """The database refused a statement. `code` is PostgreSQL's SQLSTATE or MariaDB's number."""

    def __init__(self, code, text):
        super().__init__(f"{text} ({code})")
        self.code, self.text = code, text


class Gone(Exception):
    """The database is not there, or not any more."""


class Stream:
    def __init__(self, path, seconds=60):
        self._socket = socket.socket(socket.AF_UNIX, socket.SOCK_STREAM)
        self._socket.settimeout(seconds)
        self._held = b""
        try:
            self._socket.connect(str(path))
        except OSError as e:
            self._socket.close()
            raise Gone(f"nothing answers at {path}: {e}") from e

    def send(self, data):
        try:
            self._socket.sendall(data)
        except OSError as e:
            raise Gone(f"the database has hung up: {e}") from e

    def read(self, count):
        while len(self._held) < count:
            try:
                got = self._socket.recv(65536)
            except OSError as e:
                raise Gone(f"the database has hung up: {e}") from e
            if not got:
                raise Gone("the database has hung up")
            self._held += got
        data, self._held = self._held[:count], self._held[count:]
        return data

    def close(self):
        self._socket.close()


def quoted(value):
    """A value as it stands in a statement of either database. Names of boats and plans need no more than this."""
    if isinstance(value, int):
        return str(value)
    if "\\" in value or "\0" in value:
        raise ValueError(f"{value!r} has a sign that the two databases read differently")
    return "'" + value.replace("'", "''") + "'"
