"""A client for PostgreSQL: protocol 3 over a Unix socket, one statement at a time, no password. Enough for the stations."""

import struct

from .wire import DatabaseError, Gone, Stream

WHOLE_NUMBERS = {20, 21, 23}  # the types bigint, smallint, integer


class Connection:
    """`tag` is what the last statement is said to have done: a COMMIT or PREPARE of a failed transaction is a ROLLBACK, and no error."""

    def __init__(self, path, user, database):
        self._stream = Stream(path)
        words = b"".join(word.encode() + b"\0" for word in ("user", user, "database", database)) + b"\0"
        self._stream.send(struct.pack("!II", len(words) + 8, 3 << 16) + words)
        self._answer()

    def query(self, sql):
        """The rows of a statement that gives rows, and of any other how many rows it touched."""
        text = sql.encode() + b"\0"
        self._stream.send(b"Q" + struct.pack("!I", len(text) + 4) + text)
        return self._answer()

    def close(self):
        try:
            self._stream.send(b"X\0\0\0\4")
        except Gone:
            pass
        self._stream.close()

    def _answer(self):
        types, rows, touched, error = None, [], 0, None
        while True:
            kind, length = struct.unpack("!cI", self._stream.read(5))
            body = self._stream.read(length - 4)
            if kind == b"T":
                types = _types(body)
            elif kind == b"D":
                rows.append(_row(body, types))
            elif kind == b"C":
                self.tag = body[:-1].decode()
                last = self.tag.split()[-1]
                touched = int(last) if last.isdigit() else 0
            elif kind == b"E":
                fields = {part[:1]: part[1:].decode("utf-8", "replace") for part in body.split(b"\0") if part}
                error = DatabaseError(fields[b"C"], fields[b"M"])
                if fields[b"S"] in ("FATAL", "PANIC"):
                    raise error
            elif kind == b"R" and body != b"\0\0\0\0":
                raise Gone("the database wants a password, and this client has none")
            elif kind == b"Z":
                if error:
                    raise error
                return touched if types is None else rows


def _types(body):
    types, at = [], 2
    for _ in range(int.from_bytes(body[:2], "big")):
        at = body.index(b"\0", at) + 7  # behind the name: table (4), column (2)
        types.append(int.from_bytes(body[at : at + 4], "big"))
        at += 12  # type (4), length (2), modifier (4), format (2)
    return types


def _row(body, types):
    row, at = [], 2
    for kind in types:
        length = int.from_bytes(body[at : at + 4], "big", signed=True)
        at += 4
        if length < 0:
            row.append(None)
            continue
        value = body[at : at + length].decode()
        row.append(int(value) if kind in WHOLE_NUMBERS else value)
        at += length
    return tuple(row)
