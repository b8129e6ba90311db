"""The journal's records, wherever they are kept: what was asked, what was answered, what had reached the disk.

The service's answers are a function of its input, so the messages alone give the table again; the answers stand beside them so that a
replay can be compared. A record is a number, one more than the last record's, and a text:

    journal 1 NAME             the first: the form of the journal, and a name that no other has
    start TIME SYNC BOOT       a daemon took it up
    in BYTES                   a message in hexadecimal, written before the service sees it
    out N LINE                 the answer to the message of record N, written before it is sent
    forced N                   everything up to record N was on the disk when this was written
    time TIME                  at most one a second
    committed 1-5 7            after compaction: numbers that were told to commit before it

otm_file.py keeps records in a file, otm_postgresql.py in a table of PostgreSQL.
"""

import secrets
import time
from collections import deque

QUESTIONS = (8, 9)  # propose, order: the kinds that never change the table
# Kinds that may be lost behind the last forced record (docs/DAEMON.md, What can be lost). Any other, also one that is not known here, is
# forced before it is answered.
HARMLESS = (0, 2, 3, 4, 6, 7)


class Damaged(Exception):
    """The journal is not what it should be; nothing was changed."""


class Taken(Exception):
    """Another daemon has the journal."""


class Full(Exception):
    """The records could not be written, and the journal is as before."""


class Lost(Exception):
    """It is not known whether the records are in the journal, or it is another's. Who has it must stop, and answer nothing."""


def kind(message):
    """The kind of a message; an empty body is none."""
    return message[3] if len(message) > 3 else None


def new_name():
    return secrets.token_hex(8)


def stamp(seconds):
    return time.strftime("%Y-%m-%dT%H:%M:%SZ", time.gmtime(seconds))


class Journal:
    """A journal that this process may write. A place to keep it gives `_store(records, force)`, which raises Full or Lost, `records(last)`,
    and `still_ours()`, which raises Lost; it sets `next`, the number of the next record."""

    next = 1
    cut = ""  # what was cut off at the opening, in words
    same_boot = False  # whether everything that was written, forced or not, is still here

    def __init__(self):
        self._forced = self._said = 0
        self._second = None

    def append(self, texts, force=False):
        """Writes records, forces them to the disk if asked to, and gives the number of the first. The texts may be a function of it."""
        lead = []
        if self._forced > self._said:
            lead.append(f"forced {self._forced}")
        second = int(time.time())
        if second != self._second:
            lead.append(f"time {stamp(second)}")
        first = self.next + len(lead)
        texts = texts(first) if callable(texts) else texts
        self._store([*lead, *texts], force)
        self.next, self._second, self._said = first + len(texts), second, self._forced
        if force:
            self._forced = self.next - 1
        return first

    def taken_up(self, log):
        """All records, the last of them when the journal is this process's own."""
        return self.records()

    def still_ours(self):
        pass

    def close(self):
        pass


def paired(records):
    """The messages with their answers: (number, message, answer), None for those at the end that have no answer yet."""
    waiting = deque()
    for number, text in records:
        word, _, rest = text.partition(" ")
        if word == "in":
            waiting.append((number, bytes.fromhex(rest)))
        elif word == "out":
            asked, _, line = rest.partition(" ")
            if not waiting or waiting[0][0] != int(asked):
                raise Damaged(f"Record {number} answers record {asked}, which is not the next message without an answer.")
            yield (*waiting.popleft(), line)
    for number, message in waiting:
        yield number, message, None


def numbers_in(text):
    """The numbers of '1-5 7'."""
    for part in text.split():
        low, _, high = part.partition("-")
        yield from range(int(low), int(high or low) + 1)


def ranges_of(numbers):
    """'1-5 7' for the numbers 1 to 5 and 7."""
    parts = []
    for n in sorted(numbers):
        if parts and parts[-1][1] == n - 1:
            parts[-1][1] = n
        else:
            parts.append([n, n])
    return [f"{a}-{b}" if a < b else f"{a}" for a, b in parts]
