"""otm journal: a daemon's journal shown, checked, made short, and asked for outcomes."""

import sys
from itertools import takewhile

from otm_compact import Refuses, compacted
from otm_journal import Damaged, Full, Lost, Taken, paired
from otm_outcomes import ACTIVE, Outcomes
from otm_play import program
from otm_script import show, why_ten
from otm_service import Service, ServiceGone
from otm_table import Differs, replay
from otm_where import make_sure, open_journal, read_journal

from delphrimock import read_body

COMMANDS = ("show", "check", "compact", "outcomes")


def keep(words):
    flags = [w for w in words if w.startswith("--")]
    words = [w for w in words if not w.startswith("--")]
    if not words or words[0] not in COMMANDS:
        raise Refuses(f"It is 'otm journal {'|'.join(COMMANDS)} WHERE'.")
    command, rest = words[0], words[1:]
    if not rest:
        raise Refuses(f"'otm journal {command}' needs a journal: a file's path, or postgresql:...")
    for flag in flags:
        if (command, flag) != ("compact", "--carried-out"):
            raise Refuses(f"'otm journal {command}' knows no {flag}.")
    if len(rest) > 1 and command != "outcomes":
        raise Refuses(f"'otm journal {command}' has no use for '{rest[1]}'.")
    try:
        if command == "show":
            return show_script(rest[0])
        if command == "check":
            return check(rest[0])
        if command == "compact":
            return compact(rest[0], bool(flags))
        return tell_outcomes(rest[0], rest[1:])
    except (Damaged, Taken, Lost, Full) as e:
        raise Refuses(str(e)) from None
    except ServiceGone as e:
        raise Refuses(f"The replay did not come to its end: {e}.") from None


# ---- show


def said(message):
    call = read_body(message[3:])
    return show(call) if call else f"bytes {message.hex(' ')}"


def show_script(where):
    """The journal as a script with the answers expected, so that 'otm run -' plays it."""
    waiting = {}  # comments stand where they were written, before the message that follows

    def noting():
        notes = []
        for number, text in read_journal(where):
            word, _, rest = text.partition(" ")
            if word in ("start", "time", "committed", "journal"):
                notes.append(f"# {text}")
            elif word == "in" and notes:
                waiting[number], notes = notes, []
            yield number, text
        waiting[None] = notes

    for number, message, line in paired(noting()):
        for note in waiting.pop(number, ()):
            print(note)
        call = read_body(message[3:])
        print(said(message) + (f" -> {line}" if line else "") + ("" if call else f"  # {why_ten(message[3:])}") + ("" if line else "  # not answered yet"))
    for note in waiting[None]:
        print(note)
    return 0


# ---- check


def check(where):
    """Reads every record, replays, compares. Status 1 if an answer differs."""
    service, outcomes, last = Service(program()), Outcomes(), 0

    def noting():
        nonlocal last
        for record in read_journal(where):
            last = record[0]
            yield record

    try:
        loose = replay(service, paired(noting()))
        outcomes.read(takewhile(lambda record: record[0] <= last, read_journal(where)))  # a daemon may have written on
        for _, message, line in loose:
            outcomes.take(message, line)
        (order,) = service.ask([b"\x01\x00\x01\x09"])
    except Differs as e:
        print(e)
        return 1
    finally:
        service.kill()
    print(f"{outcomes.messages} messages, and a replay gives the answers that are recorded.")
    if loose:
        print(f"{len(loose)} of them have no recorded answer: a daemon is at work on them, or was killed.")
    if outcomes.opening:
        print(f"Last number begun: {outcomes.last}. Highest committed tickets: {' '.join(map(str, outcomes.highest))}.")
        print(f"Active: {' '.join(map(str, outcomes.active())) or 'none'}. Kept: {order[6:] or 'none'}.")
    else:
        print("The table is not open.")
    return 0


# ---- compact


def compact(where, carried_out):
    journal = open_journal(where, create=False)
    try:
        before = journal.next - 1
        journal.replace(compacted(journal, program(), carried_out))
    except Differs as e:
        raise Refuses(str(e)) from None
    finally:
        journal.close()
    print(f"{before} records became {sum(1 for _ in read_journal(where))}.")
    return 0


# ---- outcomes


def tell_outcomes(where, numbers):
    """A line for each number: what became of it. A decision that is journalled and not yet answered is made by a replay."""
    for n in numbers:
        if not (n.isascii() and n.isdigit()):
            raise Refuses(f"'{n}' stands where a number is due.")
    outcomes = Outcomes()
    records = list(read_journal(where))
    if outcomes.read(records):
        service = Service(program())
        try:
            for _, message, line in replay(service, paired(records)):
                outcomes.take(message, line)
        except Differs as e:
            raise Refuses(str(e)) from None
        finally:
            service.kill()
    make_sure(where)
    for n in map(int, numbers) if numbers else sorted(outcomes.fates):
        fate = outcomes.fate(n)
        more = f" at {','.join(map(str, outcomes.sites[n]))} since {outcomes.started[n]}" if fate == ACTIVE else ""
        sys.stdout.write(f"{n} {fate}{more}\n")
    return 0
