"""A client of the daemon: its bytes cut into messages, and the lines that it has still to be sent."""

import time
from collections import deque


class Connection:
    """A client: bytes that came, and lines that are to go."""

    def __init__(self, sock, number):
        self.sock, self.number = sock, number
        self.came = b""
        self.lines = deque()  # not sent, or not wholly
        self.sent = 0  # bytes of the first of them
        self.waiting = 0  # bytes in them
        self.over = False  # no more is read: it ended its input, or sent what is no message
        self.events = 0  # what is waited for at it
        self.since = time.monotonic()  # when it last came forward

    def messages(self, most):
        """The next whole messages. At one that is refused with 11 the connection is over, as the service's reading would be (RULES,
        Reading); None stands for it."""
        out, data, at = [], self.came, 0
        while len(out) < most and at < len(data):
            length = int.from_bytes(data[at + 1 : at + 3], "big")
            whole = at + 3 <= len(data)
            if data[at] != 1 or whole and length > 160:
                out.append(None)
                at, self.over = len(data), True
            elif whole and at + 3 + length <= len(data):
                out.append(data[at : at + 3 + length])
                at += 3 + length
            elif self.over:
                out.append(None)
                at = len(data)
            else:
                break
        self.came = data[at:]
        return out

    def say(self, line):
        self.lines.append(line)
        self.waiting += len(line)

    def send(self):
        """Sends what the other side takes."""
        while self.lines:
            data = b"".join(self.lines)[self.sent :]
            try:
                done = self.sock.send(data)
            except BlockingIOError:
                return
            self.since = time.monotonic()
            done += self.sent
            while self.lines and done >= len(self.lines[0]):
                done -= len(self.lines[0])
                self.waiting -= len(self.lines.popleft())
            self.sent = done

    def untold(self):
        """Numbers given to it of which it cannot know."""
        return [line[6:-1].decode() for line in self.lines if line.startswith(b"begin ")]
