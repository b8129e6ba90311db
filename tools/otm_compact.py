"""A short journal in the place of a long one: an opening that gives the same table, where nothing is active.

Whoever begins later has a base at or above every ticket committed so far, so the old rows cannot matter (RULES, Forgetting: with nothing
active a sweep forgets them all). The new table is tried beside the old one before anything is replaced.
"""

import random

from otm_journal import paired, ranges_of
from otm_outcomes import COMMIT, Outcomes
from otm_service import Service
from otm_table import replay

from delphrimock import LARGEST, Call

TRIALS = 400


class Refuses(Exception):
    """Why it is not done, in a sentence."""


def opening_after(outcomes):
    """The messages that open the same table anew."""
    if outcomes.opening is None:
        raise Refuses("The table was never opened, so there is nothing to compact.")
    active = outcomes.active()
    if active:
        raise Refuses(f"These are active: {', '.join(map(str, active))}. Decide or abort them first.")
    if outcomes.last >= LARGEST:
        raise Refuses(f"The number {LARGEST} has been given out, so no table can go on from here.")
    fields = [outcomes.last + 1, *outcomes.highest]
    opening = outcomes.opening[:4] + b"".join(f.to_bytes(4, "big") for f in fields)
    return [opening, outcomes.clock] if outcomes.clock else [opening]


def known(outcomes):
    """Records of who was told to commit, for whoever has not carried it out yet."""
    low, numbers = outcomes.known_from, [n for n, fate in outcomes.fates.items() if fate == COMMIT]
    texts, part = [], []
    for text in ranges_of(numbers):
        part.append(text)
        if len(part) == 100:
            high = int(text.rpartition("-")[2])
            texts.append(f"committed {low} {high} {' '.join(part)}")
            low, part = high + 1, []
    if part or low <= outcomes.last:
        texts.append(f"committed {low} {outcomes.last} {' '.join(part)}".rstrip())
    return texts


def trials(outcomes):
    """Later calls, the same at every run: at each site a ticket at the floor and one above, then work of every kind."""
    dice, sites = random.Random(1), range(len(outcomes.highest))
    first = outcomes.last + 1
    yield Call("begin", sites=tuple(sites))
    for s in sites:
        for ticket in (outcomes.highest[s], min(outcomes.highest[s] + 1, LARGEST)):
            yield Call("ticket", first, s, ticket)
    yield Call("abort", first)
    last = first
    for _ in range(TRIALS):
        n, s = min(LARGEST, dice.randint(max(first, last - 4), last + 1)), dice.choice(sites)
        name = dice.choice(["begin", "ticket", "ticket", "ticket", "prepared", "prepared", "decide", "abort", "forget", "sweep", "order"])
        last += name == "begin"
        if name == "begin":
            yield Call(name, sites=tuple(x for x in sites if x == s or dice.random() < 0.3))
        else:
            yield Call(name, n, s, min(LARGEST, outcomes.highest[s] + dice.randint(0, 40)))
    yield Call("propose", numbers=())


def compacted(journal, program, carried_out):
    """What may stand in the journal's place, as a function of the number of its first record. Nothing is changed here."""
    outcomes, old, new = Outcomes(), Service(program), Service(program)
    try:
        for number, _, _ in replay(old, paired(journal.records())):
            raise Refuses(f"Record {number} has no answer yet: let a daemon take the journal up first.")
        outcomes.read(journal.records())
        messages = opening_after(outcomes)
        answers = new.ask(messages)
        old.ask([Call("sweep").message()])
        for call in trials(outcomes):
            (before,), (after,) = old.ask([call.message()]), new.ask([call.message()])
            if before != after:
                raise Refuses(f"The new table would answer '{after}' to a later {call.name}, the old one '{before}'; the journal stays as it is.")
    finally:
        old.kill()
        new.kill()

    def texts(first):
        out = [] if carried_out else known(outcomes)
        for message, line in zip(messages, answers):
            at = first + len(out)
            out += [f"in {message.hex()}", f"out {at} {line}"]
        return out

    return texts
