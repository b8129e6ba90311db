"""A client for MariaDB: protocol 4.1 over a Unix socket, one statement at a time, no password. Enough for the stations."""

import struct

from .wire import DatabaseError, Stream

PROTOCOL_41, SECURE, BY_PLUGIN, WITH_DATABASE = 0x200, 0x8000, 0x80000, 0x8
UTF8 = 45
WHOLE_NUMBERS = {1, 2, 3, 8, 9}  # the types of 1, 2, 4, 8 and 3 bytes


class Connection:
    def __init__(self, path, user, database):
        self._stream = Stream(path)
        self._packet()  # the greeting; an error in it is raised
        flags = PROTOCOL_41 | SECURE | BY_PLUGIN | (WITH_DATABASE if database else 0)
        words = [user.encode(), b""]  # an empty password has an empty proof: one byte, its length, which is 0
        words += [database.encode()] if database else []
        words += [b"mysql_native_password"]
        self._send(struct.pack("<IIB23x", flags, 1 << 24, UTF8) + b"".join(word + b"\0" for word in words), 1)
        if self._packet()[:1] == b"\xfe":  # asks for another way to log in, in which no password is empty as well
            self._send(b"", self._next)
            self._packet()

    def query(self, sql):
        """The rows of a statement that gives rows, and of any other how many rows it touched."""
        self._send(b"\x03" + sql.encode(), 0)
        first = self._packet()
        if first[0] == 0:
            return _number(first, 1)[0]
        columns = [self._packet() for _ in range(_number(first, 0)[0])]
        self._packet()  # the end of the columns
        types, rows = [_type(column) for column in columns], []
        while True:
            packet = self._packet()
            if packet[0] == 0xFE and len(packet) < 9:
                return rows
            rows.append(_row(packet, types))

    def close(self):
        self._stream.close()

    def _send(self, body, sequence):
        self._stream.send(len(body).to_bytes(3, "little") + bytes([sequence]) + body)

    def _packet(self):
        head = self._stream.read(4)
        self._next = head[3] + 1
        body = self._stream.read(int.from_bytes(head[:3], "little"))
        if body[:1] == b"\xff":
            text = body[3:].decode("utf-8", "replace")
            raise DatabaseError(int.from_bytes(body[1:3], "little"), text[6:] if text.startswith("#") else text)
        return body


def _number(body, at):
    """A number of 1 to 9 bytes, as the protocol writes lengths, and the place behind it."""
    wide = {0xFC: 2, 0xFD: 3, 0xFE: 8}.get(body[at])
    return (int.from_bytes(body[at + 1 : at + 1 + wide], "little"), at + 1 + wide) if wide else (body[at], at + 1)


def _type(column):
    at = 0
    for _ in range(6):  # catalog, schema, table, its own name, column, its own name
        length, at = _number(column, at)
        at += length
    return column[at + 7]  # behind a length byte, the character set (2) and the width (4)


def _row(packet, types):
    row, at = [], 0
    for kind in types:
        if packet[at] == 0xFB:
            row.append(None)
            at += 1
            continue
        length, at = _number(packet, at)
        value = packet[at : at + length].decode("utf-8", "replace")
        row.append(int(value) if kind in WHOLE_NUMBERS else value)
        at += length
    return tuple(row)
