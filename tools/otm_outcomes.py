"""What became of each transaction, and how high the sites' committed tickets are: read off messages and their answers.

An answer names the number that it is about, so most of this does not depend on the kind of message. What is not known here, otm_compact.py
notices, since it tries the table that it makes.
"""

from otm_journal import numbers_in, paired

from delphrimock import read_body

COMMIT, CYCLE, ABORT, ACTIVE, OLD, UNKNOWN = "commit", "cycle", "abort", "active", "old", "unknown"


class Outcomes:
    def __init__(self):
        self.opening = None  # the message that opened the table
        self.clock = None  # the last message that set its clock, in tables that have one
        self.fates, self.sites, self.started = {}, {}, {}
        self.known_from = 1  # below are numbers of which everything was carried out before a compaction
        self.last = 0  # the last number begun
        self.highest = []  # the highest committed ticket of each site
        self.messages = 0
        self._tickets = {}
        self._time = ""

    def read(self, records):
        """Takes in a journal, and gives the messages that have no answer in it yet: (number, message)."""
        loose = []
        for number, message, line in paired(self._noting(records)):
            if line is None:
                loose.append((number, message))
            else:
                self.take(message, line)
        return loose

    def _noting(self, records):
        for record in records:
            word, _, rest = record[1].partition(" ")
            if word == "time":
                self._time = rest
            elif word == "committed":
                low, high, numbers = (rest + " ").split(" ", 2)
                self.known_from = min(self.known_from, int(low)) if self.fates else int(low)
                committed = set(numbers_in(numbers))
                self.fates.update((n, COMMIT if n in committed else ABORT) for n in range(int(low), int(high) + 1))
            yield record

    def take(self, message, line):
        self.messages += 1
        word, _, rest = line.partition(" ")
        call = read_body(message[3:])
        if word == "ok" and self.opening is None:  # before an opening nothing else is answered ok
            self.opening = message
            fields = [int.from_bytes(message[i : i + 4], "big") for i in range(4, len(message), 4)]
            self.last, self.highest = fields[0] - 1, fields[1:]
            if not self.fates:
                self.known_from = fields[0]
        elif word == "begin":
            n = self.last = int(rest)
            self.fates[n], self.started[n], self._tickets[n] = ACTIVE, self._time, {}
            self.sites[n] = call.sites if call else ()
        elif word == "commit":
            self._ended(int(rest), COMMIT)
        elif word in ("cycle", "same"):
            self._ended(int(rest), CYCLE if word == "cycle" else ABORT)
        elif word == "late":
            self.clock = message
        elif word == "ok" and call and call.name == "abort":
            self._ended(call.number, ABORT)
        elif word == "ok" and call and call.name == "ticket":
            self._tickets[call.number][call.site] = call.ticket

    def _ended(self, n, fate):
        self.fates[n] = fate
        tickets = self._tickets.pop(n, {})
        self.sites.pop(n, None)
        self.started.pop(n, None)
        if fate == COMMIT:
            for site, ticket in tickets.items():
                self.highest[site] = max(self.highest[site], ticket)

    def fate(self, n):
        return self.fates.get(n) or (OLD if 0 < n < self.known_from else UNKNOWN)

    def active(self):
        return sorted(n for n in self.started if self.fates[n] == ACTIVE)

