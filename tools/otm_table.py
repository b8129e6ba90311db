"""One table, kept through crashes: a service process and the journal that it follows.

For every message that can change the table: into the journal; to the disk, if its answer must not be lost; to the service; its answer into
the journal; only then is it given to who asked. A service that dies is replaced, and the journal replayed to it.
"""

import time
from itertools import islice

from otm_journal import HARMLESS, QUESTIONS, Full, Lost, kind, paired, stamp
from otm_service import Service, ServiceGone

from delphrimock import Call

ALWAYS, ANSWERS, NEVER = SYNCS = "always", "answers", "never"
TRIES = 3  # a service that dies so often over the same messages will not live
CHUNK = 512


class Differs(Exception):
    """A replay gave another answer than the journal has."""


def replay(service, pairs):
    """Puts recorded messages to a new service and compares the answers. Gives those that have none in the journal: (number, message, line)."""
    loose, pairs = [], iter(pairs)
    while chunk := list(islice(pairs, CHUNK)):
        for (number, message, recorded), line in zip(chunk, service.ask([m for _, m, _ in chunk])):
            if recorded is None:
                loose.append((number, message, line))
            elif recorded != line:
                raise Differs(
                    f"Record {number} was answered '{recorded}', and now it is '{line}': the journal was written by another service, or changed."
                )
    return loose


class Table:
    def __init__(self, journal, program, sync=ANSWERS, log=lambda words: None):
        self.journal, self._program, self._sync, self._log = journal, program, sync, log
        self._service = None
        self._loose = []  # of the last replay: what has no answer in the journal
        self._unsaid = []  # answers that found no room in the journal
        self._orphans = []  # numbers that nobody was told of

    def start(self):
        """Replays the journal. What was journalled and not answered, because a daemon died, is done now; of its begins nobody knows the
        numbers, so they are aborted, unless answers may be missing that had been given."""
        self._ask([], None)
        loose = self._loose
        outs = [f"out {number} {line}" for number, _, line in loose]
        boot = getattr(self.journal, "boot", "-")
        self.journal.append([f"start {stamp(time.time())} {self._sync} {boot}", *outs], self._sync != NEVER)
        begun = [line[6:] for _, _, line in loose if line.startswith("begin ")]
        if begun and self.journal.same_boot:
            self.disown(begun)
        elif begun:
            self._log(f"begun, and perhaps known to nobody: {', '.join(begun)}; abort what has no owner")

    def answer(self, messages):
        """The lines for these messages, in sequence. Raises Full, and then none of them may be answered, or Lost."""
        texts = [f"in {m.hex()}" for m in messages if kind(m) not in QUESTIONS]
        if texts:
            force = self._sync == ALWAYS or self._sync == ANSWERS and any(map(_must_stay, messages))
            first = self.journal.append([*self._unsaid, *texts], force) + len(self._unsaid)
            self._unsaid = []
        else:
            self.journal.still_ours()
            first = self.journal.next
        lines = self._ask(messages, first - 1)
        if texts:
            asked = (line for m, line in zip(messages, lines) if kind(m) not in QUESTIONS)
            outs = [f"out {first + i} {line}" for i, line in enumerate(asked)]
            try:
                self.journal.append(outs)
            except Full:
                self._unsaid = outs
                self._orphans += [line[6:] for line in lines if line.startswith("begin ")]
                raise
        return lines

    def disown(self, numbers):
        """Aborts transactions whose numbers nobody was told."""
        self._orphans += numbers
        try:
            if self._orphans:
                self._log(f"aborting what nobody was told of: {', '.join(self._orphans)}")
                numbers, self._orphans = self._orphans, []
                self.answer([Call("abort", int(n)).message() for n in numbers])
        except Full:
            self._orphans = numbers

    def end(self):
        if self._service:
            self._service.end()
        self.journal.close()

    def _ask(self, messages, last):
        """Asks the service; one that dies is replaced by another, brought to where this was by the records up to `last`."""
        why = None
        for _ in range(TRIES):
            try:
                if not self._service:
                    self._new_service(last)
                return self._service.ask(messages)
            except ServiceGone as e:
                why = e
                self._log(f"{e}; starting another")
                if self._service:
                    self._service.kill()
                    self._service = None
        raise Lost(f"The service died {TRIES} times over the same messages: {why}.")

    def _new_service(self, last):
        service = Service(self._program)
        try:
            records = self.journal.taken_up(self._log) if last is None else self.journal.records(last)
            self._loose = replay(service, paired(records))
        except BaseException:
            service.kill()
            raise
        self._service = service
        self._log(f"service {service.pid} is ready, after {self.journal.next - 1 if last is None else last} records")


def _must_stay(message):
    return kind(message) not in QUESTIONS and kind(message) not in HARMLESS
