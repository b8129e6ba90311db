"""The coordinator from Python: a service process of its own or a daemon, answers as values, refusals as exceptions.

    from delphrimock import Coordinator, Refused

    with Coordinator("target/bin/service") as c:     # or a socket's path, or ("localhost", 4711)
        c.open(first=1, floors=[0, 0])
        n = c.begin([0, 1])
        c.ticket(n, site=0, ticket=1)
        ...
        if c.decide(n): ...            # True: committed. False: a cycle, and n is aborted

One file, standard library only. The rules are docs/RULES.md; sections are cited by their titles.
"""

import os
import select
import socket
import stat
import subprocess
import threading
import time
from dataclasses import dataclass

LARGEST = 4_294_967_295  # of a number, a ticket and a floor
LONGEST_BODY = 160
MOST_FLOORS_IN_A_MESSAGE = (LONGEST_BODY - 5) // 4
MOST_NUMBERS_IN_A_MESSAGE = (LONGEST_BODY - 1) // 4

KINDS = ("open", "begin", "ticket", "prepared", "abort", "decide", "forget", "sweep", "propose", "order")


# ---- messages (RULES, Messages)


@dataclass(frozen=True)
class Call:
    """One call. A field that its kind does not have stays at its default."""

    name: str
    number: int = 0  # the transaction's; of an opening, the first to be given out
    site: int = 0
    ticket: int = 0
    sites: tuple = ()  # begin: the sites listed, lowest first
    numbers: tuple = ()  # open: the floors; propose: the order proposed

    def body(self):
        kind = bytes([KINDS.index(self.name)])
        if self.name == "open":
            return kind + _four(self.number) + b"".join(map(_four, self.numbers))
        if self.name == "begin":
            if len({_site(s, 7) for s in self.sites}) < len(self.sites):
                raise ValueError("a site is listed twice")
            return kind + bytes([sum(1 << s for s in self.sites)])
        if self.name == "ticket":
            return kind + _four(self.number) + bytes([_site(self.site, 255)]) + _four(self.ticket)
        if self.name == "prepared":
            return kind + _four(self.number) + bytes([_site(self.site, 255)])
        if self.name in ("abort", "decide", "forget"):
            return kind + _four(self.number)
        if self.name == "propose":
            return kind + b"".join(map(_four, self.numbers))
        return kind

    def message(self):
        body = self.body()
        if len(body) > LONGEST_BODY:
            most = MOST_FLOORS_IN_A_MESSAGE if self.name == "open" else MOST_NUMBERS_IN_A_MESSAGE
            raise ValueError(f"{self.name} has {len(self.numbers)} numbers, and a message has room for {most}")
        return b"\x01" + len(body).to_bytes(2, "big") + body


def _whole(value, what, most):
    # True is an int to Python, and would be sent as a 1.
    if isinstance(value, bool) or not isinstance(value, int):
        raise ValueError(f"{what}{value!r} is not a whole number")
    if not 0 <= value <= most:
        raise ValueError(f"{what}{value} is not between 0 and {most}")
    return value


def _four(value):
    return _whole(value, "", LARGEST).to_bytes(4, "big")


def _site(value, most):
    return _whole(value, "site ", most)


def _list(values, what):
    try:
        return tuple(values)
    except TypeError:
        raise ValueError(f"{values!r} is no list of {what}") from None


def read_body(body):
    """The call that a body says, or None where the service answers 10."""
    if not body or body[0] >= len(KINDS):
        return None
    name, rest = KINDS[body[0]], body[1:]
    fours = tuple(int.from_bytes(rest[i : i + 4], "big") for i in range(0, len(rest) - 3, 4))
    whole = len(rest) % 4 == 0
    if name == "open":
        return Call(name, number=fours[0], numbers=fours[1:]) if whole and fours else None
    if name == "propose":
        return Call(name, numbers=fours) if whole else None
    if name == "begin":
        return Call(name, sites=tuple(s for s in range(8) if rest[0] >> s & 1)) if len(rest) == 1 else None
    if name == "ticket":
        return Call(name, fours[0], rest[4], int.from_bytes(rest[5:], "big")) if len(rest) == 9 else None
    if name == "prepared":
        return Call(name, fours[0], rest[4]) if len(rest) == 5 else None
    if name in ("abort", "decide", "forget"):
        return Call(name, fours[0]) if len(rest) == 4 else None
    return Call(name) if not rest else None


# ---- refusals (RULES, Refusals)

REFUSALS = {
    1: (
        "the table is not open, or this opening is no good",
        "Open the table first, once, with a first number of at least 1 and one floor for each of 1 to 8 sites.",
    ),
    2: (
        "the table holds no transaction of this number: it was never given out, or was aborted, or forgotten",
        "Use the number that begin answered. After an abort or a cycle, begin anew and use the new number.",
    ),
    3: (
        "no site is listed, or the table lacks the site, or this transaction does not list it",
        "Sites count from 0, one for each floor of the opening. List every site at begin.",
    ),
    4: (
        "the call is out of turn",
        "At each site the ticket comes first, then prepared, each once. When all sites are prepared, decide; "
        "abort is for active transactions, forget for committed ones.",
    ),
    5: (
        "the ticket is not above the highest committed ticket that the site had when the transaction began",
        "A site's tickets must rise. Look whether the site's counter was set back, or the ticket is of an earlier "
        "transaction; otherwise abort and begin anew.",
    ),
    6: (
        "another transaction in the table holds this very ticket at this site",
        "A site gives each ticket once. Report the ticket that the site gave to this transaction.",
    ),
    7: (
        "all 32 slots are taken by active and kept transactions",
        "Decide or abort active transactions, then sweep, and begin again. Nothing was used up.",
    ),
    8: (
        "the number 4294967295 has been given out, so no number is left",
        "Finish what is active, then start a new service and open it with a low first number and, for each site, "
        "a floor at least as high as its highest committed ticket.",
    ),
    9: (
        "it is too early to forget this one: a kept one goes before it, or an active one was at work at its commit",
        "Forget those before it first and let the older active ones end; or sweep now and then, which forgets "
        "exactly what may go.",
    ),
    10: (
        "the message has an empty body, an unknown kind, or a length that its kind does not have",
        "Look at the kind byte and the length. The service reads on behind this body.",
    ),
    11: (
        "the message's version is not 1, or its length is over 160, or the input ended inside it",
        "The service has stopped reading, and its table is gone. Mend the stream and start a new service.",
    ),
    12: ("the rows have no order", "Their tickets make a cycle."),
    13: (
        "the ticket table is bad: over 32 rows, a number 0, two equal numbers, or two equal tickets at a site",
        "Mend the rows.",
    ),
    14: ("there is no room for the order or the message", "Give a longer buffer or an earlier place."),
}

_OF_A_CALL = {
    ("open", 1): (
        "this opening is no good: it needs a first number of at least 1, and 1 to 8 floors",
        "Open again with one floor for each site. The table is still closed.",
    ),
    ("open", 4): (
        "the table is open already, and there is one opening in its life",
        "Go on with the open table. For another one start another service.",
    ),
    ("begin", 3): (
        "no site is listed, or one that the table lacks",
        "Sites count from 0, and the opening gave a floor for each. No number was used up.",
    ),
    ("ticket", 3): (
        "transaction {n} does not list site {s}",
        "Report tickets only for the sites given at begin. To use a further site, abort and begin anew with it.",
    ),
    ("prepared", 3): (
        "transaction {n} does not list site {s}",
        "Report only for the sites given at begin.",
    ),
    ("ticket", 4): (
        "transaction {n} has its ticket at site {s} already",
        "The first ticket stays. If it was wrong, abort {n} and begin anew.",
    ),
    ("prepared", 4): (
        "transaction {n} has no ticket at site {s} yet, or is prepared there already",
        "Report the ticket first; report prepared once.",
    ),
    ("abort", 4): (
        "transaction {n} is committed, and a commit is final",
        "Undo its work, if you must, by a new transaction.",
    ),
    ("decide", 4): (
        "transaction {n} is not prepared at each of its sites, or is committed already",
        "Report ticket and prepared for every site that it listed, then decide, once.",
    ),
    ("forget", 4): (
        "transaction {n} is active, and only committed ones are forgotten",
        "Decide it, or abort it, which frees its slot at once.",
    ),
    ("ticket", 5): (
        "ticket {k} is not above the highest committed ticket that site {s} had when {n} began",
        "A site's tickets must rise. Look whether the site's counter was set back; otherwise abort {n} and begin anew.",
    ),
    ("ticket", 6): (
        "another transaction in the table holds ticket {k} at site {s}",
        "A site gives each ticket once. Report the one that it gave to {n}.",
    ),
    ("forget", 9): (
        "it is too early to forget {n}: a kept one has a smaller ticket at a common site, or one that was active "
        "when {n} committed still is",
        "Forget the earlier ones first and let the older active ones end; or sweep, which forgets exactly what may go.",
    ),
}


def explain(number, call=None):
    """What a refusal means, and what to do about it: two texts, made for the call where one is given."""
    name = call.name if call else None
    if number == 1 and call and name != "open":
        return (f"{name} came before the table was opened", "Open the table first: first number, then one floor for each site.")
    if number == 2 and call:
        return (
            f"the table holds no transaction {call.number}: it was never given out, or was aborted (a cycle aborts too), "
            "or forgotten",
            REFUSALS[2][1],
        )
    meaning, advice = _OF_A_CALL.get((name, number)) or REFUSALS.get(number) or ("an unknown refusal", "")
    words = {"n": call.number, "s": call.site, "k": call.ticket} if call else {"n": "it", "s": "", "k": ""}
    return meaning.format(**words), advice.format(**words)


class Refused(Exception):
    """The service answered 'refused R'. The table is as it was before the call."""

    def __init__(self, number, call=None):
        self.number, self.call = number, call
        self.meaning, self.advice = explain(number, call)
        super().__init__(f"refused {number}: {self.meaning}. {self.advice}")


class ServiceEnded(Exception):
    """The service is not there any more, or gave something that is no answer to the call. Whether the call was done is not known."""


class TimedOut(ServiceEnded, TimeoutError):
    """No answer came in time. Whether the call was done, or still will be, is not known."""


# ---- ways to the service
#
# A call may be broken off anywhere: by its timeout, or by a signal whose handler raises. Its answer may then still be on its way, and
# must not be taken for the next call's. Each way says how it gets into step again before the next call.

EMPTY = b"\x01\x00\x00"  # a message whose answer is always 'refused 10', which no call gets
SOUND, DOUBT, MARKED, BROKEN, ENDED = range(5)


def _left(until):
    return None if until is None else max(0.0, until - time.monotonic())


class _Pipe:
    """A service process of one's own. In step again: the empty message is sent, and every line up to its answer is skipped."""

    def __init__(self, command):
        # A session of its own, so that a Ctrl-C meant for the planner does not end the table.
        self.process = subprocess.Popen(command, stdin=subprocess.PIPE, stdout=subprocess.PIPE, bufsize=0, start_new_session=True)
        self._held, self._state = b"", SOUND
        self._readable = select.poll()
        self._readable.register(self.process.stdout, select.POLLIN)

    def step(self, until):
        if self._state == SOUND:
            return
        if self._state == ENDED:
            raise ServiceEnded("the service has ended")
        if self._state == BROKEN:
            raise ServiceEnded("the connection is broken: a call was cut off where nothing tells how far it came")
        state, self._state = self._state, BROKEN  # whoever breaks this off, too, leaves it broken
        if state == DOUBT:
            self._held = b""
            self._write(EMPTY)
        try:
            while self._line(until) != "refused 10":
                pass
        except TimedOut:
            self._state = MARKED
            raise
        self._state = SOUND

    def ask(self, message, until):
        # Writes this short are all or nothing (POSIX, PIPE_BUF), so what may be on its way is a whole answer. Bytes that are no call
        # may be a part of a message, or be answered like the mark.
        self._state = DOUBT if _is_call(message) else BROKEN
        self._write(message)
        line = self._line(until)
        self._state = SOUND
        return line

    def finish(self, rest):
        try:
            self._write(rest)
        except ServiceEnded:
            pass
        self._end_input()
        while True:
            try:
                yield self._line(None)
            except ServiceEnded:
                return

    def close(self):
        self._end_input()
        status = self.process.wait()
        self.process.stdout.close()
        return status

    def _end_input(self):
        try:
            self.process.stdin.close()
        except OSError:
            pass

    def _write(self, data):
        try:
            self.process.stdin.write(data)
        except (OSError, ValueError) as e:
            self._state = ENDED
            raise ServiceEnded("the service has ended") from e

    def _line(self, until):
        while b"\n" not in self._held:
            if until is not None and not self._readable.poll(1000 * _left(until)):
                raise TimedOut("the service gave no answer in time")
            try:
                got = self.process.stdout.read(65536)
            except (OSError, ValueError):
                got = b""
            if not got:
                self._state = ENDED
                raise ServiceEnded("the service has ended")
            self._held += got
        line, self._held = self._held.split(b"\n", 1)
        return line.decode("ascii", "replace")


class _Socket:
    """A connection to a daemon, which has the table. In step again: a call that is broken off takes its connection with it, and
    the next call connects anew."""

    process = None

    def __init__(self, address, until):
        self._address, self._socket, self._closed = address, None, False
        self.step(until)

    def step(self, until):
        if self._closed:
            raise ServiceEnded("the connection was closed")
        if self._socket:
            return
        try:
            if isinstance(self._address, tuple):
                self._socket = socket.create_connection(self._address, _left(until))
                self._socket.setsockopt(socket.IPPROTO_TCP, socket.TCP_NODELAY, 1)
            else:
                self._socket = self._local(until)
        except OSError as e:
            raise ServiceEnded(f"the daemon at {self._address} cannot be reached: {e}") from e

    def _local(self, until):
        s = socket.socket(socket.AF_UNIX)
        while True:
            s.settimeout(_left(until))
            try:
                s.connect(self._address)
                return s
            except BlockingIOError:  # more are connecting at the moment than the system lines up
                if until is not None and _left(until) == 0:
                    raise
                time.sleep(0.001)

    def ask(self, message, until):
        s, self._socket = self._socket, None
        try:
            s.settimeout(_left(until))
            s.sendall(message)
            got = b""
            while not got.endswith(b"\n"):
                s.settimeout(_left(until))
                more = s.recv(65536)
                if not more:
                    raise ServiceEnded("the daemon has closed the connection")
                got += more
        except socket.timeout as e:
            s.close()
            raise TimedOut("the daemon gave no answer in time") from e
        except OSError as e:
            s.close()
            raise ServiceEnded(f"the connection to the daemon is gone: {e}") from e
        except BaseException:
            s.close()
            raise
        if got == b"refused 11\n":  # the last line of a connection
            s.close()
        else:
            self._socket = s
        return got[:-1].decode("ascii", "replace")

    def finish(self, rest):
        got = b""
        try:
            self._socket.settimeout(None)
            self._socket.sendall(rest)
            self._socket.shutdown(socket.SHUT_WR)
            while more := self._socket.recv(65536):
                got += more
        except OSError:
            pass
        self.close()
        return got.decode("ascii", "replace").splitlines()

    def close(self):
        self._closed = True
        if self._socket:
            self._socket.close()
            self._socket = None


def _is_call(message):
    return len(message) >= 3 and message[0] == 1 and len(message) == 3 + int.from_bytes(message[1:3], "big") and read_body(message[3:]) is not None


def _is_socket(path):
    try:
        return stat.S_ISSOCK(os.stat(path).st_mode)
    except OSError:
        return False


# ---- the calls


class Coordinator:
    """A table, and a way to it. `service` is one of

      a program, or a list of a program and its words: a service process of one's own. Closing it, or leaving its `with`, ends the
          process and the table with it;
      the path of a daemon's socket, or a pair of host and port: one connection to the table that the daemon has.

    With a timeout, in seconds, a call that has no answer by then raises TimedOut. After that, or after a signal in the middle of a
    call, the next call is still given its own answer. Calls may come from several threads; each waits for its own answer.
    """

    def __init__(self, service="target/bin/service", timeout=None):
        self._lock, self._timeout = threading.Lock(), timeout
        if isinstance(service, tuple) and len(service) == 2 and isinstance(service[1], int):
            self._link = _Socket(service, self._until())
        elif not isinstance(service, (str, os.PathLike)):
            self._link = _Pipe(list(service))
        elif _is_socket(service):
            self._link = _Socket(os.fspath(service), self._until())
        else:
            self._link = _Pipe([service])

    def __enter__(self):
        return self

    def __exit__(self, *_):
        self.close()

    def close(self):
        """Ends the connection. A process of one's own is waited for, and its exit status is given."""
        with self._lock:
            return self._link.close()

    def _until(self):
        return None if self._timeout is None else time.monotonic() + self._timeout

    # The calls, as RULES, Calls has them.

    def open(self, first, floors):
        """Opens the table: the first number to give out, and a floor for each site."""
        self._done(Call("open", number=first, numbers=_list(floors, "floors")))

    def begin(self, sites):
        """Begins a transaction at these sites, and gives its number."""
        return self._number(Call("begin", sites=_list(sites, "sites")), "begin")

    def ticket(self, number, site, ticket):
        """The site gave the transaction this ticket."""
        self._done(Call("ticket", number, site, ticket))

    def prepared(self, number, site):
        """The transaction's part at the site is prepared."""
        self._done(Call("prepared", number, site))

    def abort(self, number):
        """Gives an active transaction up. Its slot is free at once."""
        self._done(Call("abort", number))

    def decide(self, number):
        """True if the transaction is now committed; False if it would have made a cycle, and is aborted."""
        call = Call("decide", number)
        line = self.ask(call)
        if line not in (f"commit {number}", f"cycle {number}"):
            raise ServiceEnded(f"'{line}' is no answer to decide {number}")
        return line.startswith("commit")

    def forget(self, number):
        """Takes a committed transaction out of the table."""
        self._done(Call("forget", number))

    def sweep(self):
        """Forgets all that may go, and gives how many those were."""
        return self._number(Call("sweep"), "swept")

    def order(self):
        """An order of the kept transactions, as a list of their numbers."""
        words = self.ask(Call("order")).split(" ")
        if words[0] != "order" or not all(w.isdigit() for w in words[1:]):
            raise ServiceEnded(f"'{' '.join(words)}' is no answer to order")
        return [int(w) for w in words[1:]]

    def propose(self, numbers):
        """Whether the numbers are an order of the kept transactions."""
        line = self.ask(Call("propose", numbers=_list(numbers, "numbers")))
        if line not in ("good", "bad"):
            raise ServiceEnded(f"'{line}' is no answer to propose")
        return line == "good"

    def ask(self, call):
        """The service's line for a call. Raises Refused for a refusal."""
        line = self.send(call.message())
        if line.startswith("refused "):
            raise Refused(int(line[8:]), call)
        return line

    def send(self, message):
        """Sends the bytes of one message as they are, and gives the line it gets, refusals too."""
        with self._lock:
            until = self._until()
            self._link.step(until)
            return self._link.ask(message, until)

    def finish(self, rest=b""):
        """Sends the bytes of a last piece, ends the input, and gives the lines that are still to come."""
        with self._lock:
            return list(self._link.finish(rest))

    def _done(self, call):
        line = self.ask(call)
        if line != "ok":
            raise ServiceEnded(f"'{line}' is no answer to {call.name}")

    def _number(self, call, word):
        words = self.ask(call).split(" ")
        if len(words) != 2 or words[0] != word or not words[1].isdigit():
            raise ServiceEnded(f"'{' '.join(words)}' is no answer to {call.name}")
        return int(words[1])
