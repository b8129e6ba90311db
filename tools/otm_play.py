"""Scripts played through the service: which line answers which call, in plain words."""

import os
import re
import subprocess
from dataclasses import dataclass
from itertools import accumulate
from pathlib import Path
from typing import Optional

from otm_script import CUT, frames, read_body, why_ten  # sets the path of delphrimock

from delphrimock import Call, Coordinator, ServiceEnded, explain

ROOT = Path(__file__).resolve().parent.parent


class NoService(Exception):
    """There is no service to ask, and what to do about it, in a sentence."""


@dataclass
class Reply:
    """A message and the line that answered it, None where none came. Where the message says no call, `why` tells why."""

    message: bytes
    call: Optional[Call]
    why: str
    line: Optional[str]


def service():
    """What to talk to: the socket of a daemon, if OTM_SERVICE names one, or the program."""
    named = os.environ.get("OTM_SERVICE", "")
    return named if named and Path(named).is_socket() else program()


def program():
    """The service's program: the one that OTM_SERVICE names, or the one built in this project."""
    named = os.environ.get("OTM_SERVICE")
    path = Path(named) if named else ROOT / "target" / "bin" / "service"
    if path.is_file() and os.access(path, os.X_OK):
        return str(path.resolve())
    if named and path.is_socket():
        raise NoService(f"OTM_SERVICE names the socket '{named}', and a program is needed here.")
    if named:
        raise NoService(f"OTM_SERVICE names '{named}', and there is no such program.")
    raise NoService("The service is not built: run 'tools/build service' in the project's folder, or let OTM_SERVICE name one.")


def answers(stream):
    """The service's lines for a whole stream."""
    try:
        done = subprocess.run([program()], input=stream, stdout=subprocess.PIPE)
    except OSError as e:
        raise NoService(f"The service cannot be run: {e.strerror}.") from None
    return done.stdout.decode("ascii", "replace").splitlines()


def play(steps):
    """Plays a script, and gives for each step the replies to the messages that end in it."""
    stream = b"".join(s.message for s in steps)
    lines = iter(answers(stream))
    ends = list(accumulate(len(s.message) for s in steps))
    replies = [[] for _ in steps]
    at = step = 0
    for message, wrong in frames(stream):
        # A stream that is cut gets its line at the end; any other message as soon as it is whole, or is seen to be wrong.
        at += len(message) if not wrong or wrong == CUT else 1 if message[0] != 1 else 3
        while ends[step] < at:
            step += 1
        replies[step].append(Reply(message, *understand(message, wrong), next(lines, None)))
    return replies


def understand(message, wrong):
    """The call of a message and "", or None and what is wrong with it."""
    call = None if wrong else read_body(message[3:])
    return call, "" if call else wrong or why_ten(message[3:])


def kept(steps):
    """What is kept at a script's end: the order of it that the service gives, None if the table was never opened; everyone's
    tickets by site; and those that were aborted because of a cycle, each with all that had been committed until then."""
    whole, tickets, committed, cycles = b"", {}, [], []
    for reply in (r for each in play(steps) for r in each):
        if reply.line == "refused 11":
            break
        whole += reply.message
        if not fits(reply.call, reply.line):
            raise NoService(f"'{reply.line or 'nothing'}' is no answer to such a message; is the program the service?")
        word, _, number = reply.line.partition(" ")
        if word == "begin":
            tickets[int(number)] = {}
        elif word == "ok" and reply.call.name == "ticket":
            tickets.setdefault(reply.call.number, {})[reply.call.site] = reply.call.ticket
        elif word == "commit":
            committed.append(int(number))
        elif word == "cycle":
            cycles.append((int(number), tuple(committed)))
    last = (answers(whole + Call("order").message()) or [""])[-1]
    if last == "refused 1":
        return None, tickets, cycles
    if not fits(Call("order"), last):
        raise NoService(f"'{last or 'nothing'}' is no answer to order; is the program the service?")
    return [int(n) for n in last.split(" ")[1:]], tickets, cycles


# Which answers, besides refusals, a call can get.
ANSWERS = {
    "begin": r"begin [0-9]+",
    "decide": r"(commit|cycle) [0-9]+",
    "sweep": r"swept [0-9]+",
    "propose": r"good|bad",
    "order": r"order( [0-9]+)*",
}


def fits(call, line):
    """Whether the line can answer the call; a message that says no call can only be refused."""
    if line is None:
        return False
    return bool(re.fullmatch(r"refused [0-9]+", line) or call and re.fullmatch(ANSWERS.get(call.name, "ok"), line))


# ---- plain words


def _sites(sites):
    words = [str(s) for s in sites]
    return f"site {words[0]}" if len(words) == 1 else f"sites {', '.join(words[:-1])} and {words[-1]}"


def _done(call):
    n = call.number
    if call.name == "open":
        return f"the table is open: {_sites(range(len(call.numbers)))}; first number {n}"
    if call.name == "ticket":
        return f"transaction {n} holds ticket {call.ticket} at site {call.site}"
    if call.name == "prepared":
        return f"transaction {n} is prepared at site {call.site}"
    return f"transaction {n} is {'aborted' if call.name == 'abort' else 'forgotten'}, and its slot is free"


def plain(call, line, why=""):
    """What an answer says, and what to do about it if anything: two texts, the second often empty.

    `why` is what is wrong with a message that says no call.
    """
    word, _, rest = line.partition(" ")
    if not fits(call, line):
        return "this is no answer to such a message", "Look whether the program is the service: OTM_SERVICE may name another."
    if word == "refused":
        meaning, advice = explain(int(rest), call)
        return why or meaning, advice
    if word == "ok":
        return _done(call), ""
    if word == "begin":
        return f"transaction {rest} has begun at {_sites(call.sites)}", ""
    if word == "commit":
        return f"transaction {rest} is committed: its tickets agree with all that are kept", ""
    if word == "cycle":
        return (
            f"transaction {rest} would close a cycle with committed ones, so it is aborted",
            "Undo its work at the sites, and begin it anew if it is still wanted; it gets new tickets and a new number.",
        )
    if word == "swept":
        return {"0": "nothing could be forgotten", "1": "1 transaction was forgotten"}.get(
            rest, f"{rest} transactions were forgotten"
        ), ""
    if word == "order":
        if not rest:
            return "nothing is kept, so the order is empty", ""
        return "an order of the kept ones that agrees with all their tickets", ""
    if word == "good":
        return "this is an order of the kept ones", ""
    return (
        "this is no order of the kept ones: it must name each of them once and nobody else, smaller tickets earlier",
        "'order' gives one that is good.",
    )


__all__ = ["Coordinator", "NoService", "Reply", "ServiceEnded", "answers", "kept", "plain", "play", "program", "service", "understand"]
