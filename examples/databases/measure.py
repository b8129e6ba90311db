"""Two measures. Load: random moves, plans and local work from several threads, and the count of plans that miss or repeat a boat; moves
neither make nor lose boats, so in every serial order every plan has each boat once. Speed: transactions a second, end to end, with no
data in common. Not in the gate; docs/DATABASES.md has the figures.

    python3 examples/databases measure [--only loads|speeds] [--seconds 30] [--threads 4] [-o FILE]
"""

import argparse
import collections
import contextlib
import json
import os
import statistics
import sys
import time

from . import servers
from .coordinator import opened
from .daemon import daemon
from .stations import HARBOUR, OLD, RELIEF, Evening, arrives, leaves
from .workers import BOATS, Load, Speed, worked

ROUNDS = 3
PAIRS = {
    "two PostgreSQLs": ("postgresql", "postgresql"),
    "MariaDB and PostgreSQL": ("mariadb", "postgresql"),
    "two MariaDBs": ("mariadb", "mariadb"),
}


@contextlib.contextmanager
def pipe(_):
    """A service of one's own, which all threads share."""
    with opened() as c:
        yield lambda: c


@contextlib.contextmanager
def journal(quick):
    """The daemon, and a connection for each thread."""
    with contextlib.ExitStack() as stack:
        one = stack.enter_context(daemon("never" if quick else "answers"))
        yield lambda: stack.enter_context(one.connect())


@contextlib.contextmanager
def nobody(_):
    yield lambda: None


# The ways at the old and the new station, whether tickets are taken, who decides.
TWO_PHASE, SOUND, KEPT = "two-phase commit alone", "sound tickets, coordinator", "the same, daemon with its journal"
ROWS, ROWS_ALONE = "tickets in rows, coordinator", "tickets in rows, nobody decides"
BARE, EARLY = "unsound: nextval alone, coordinator", "unsound: NEXTVAL first, coordinator"
WAYS = {
    TWO_PHASE: ((None, None), False, nobody),
    SOUND: ((None, None), True, pipe),
    KEPT: ((None, None), True, journal),
    ROWS: (("row", "row"), True, pipe),
    ROWS_ALONE: (("row", "row"), True, nobody),
    BARE: ((None, "bare"), True, pipe),
    EARLY: (("early", None), True, pipe),
}
LOADS = {
    "two PostgreSQLs": (TWO_PHASE, SOUND, KEPT, ROWS, ROWS_ALONE, BARE),
    "MariaDB and PostgreSQL": (TWO_PHASE, SOUND, KEPT, ROWS, ROWS_ALONE, BARE, EARLY),
    "two MariaDBs": (TWO_PHASE,),
}


def run(up, way, kind, seconds, threads):
    """One run: what was counted, and the seconds it took."""
    ways, tickets, who = WAYS[way]
    counts = collections.Counter()
    with Evening(up, ways=ways) as evening, who(up[OLD].quick) as connect:
        if kind is Load:
            for site, boat in zip(evening.look, (RELIEF, HARBOUR)):
                leaves(site, boat)
            for boat in BOATS:
                arrives(evening.look[OLD], boat)
            Load.where, Load.plans = dict.fromkeys(BOATS, OLD), []
        end = time.monotonic() + seconds
        took = worked([kind(evening, connect(), tickets, counts, end, i) for i in range(threads)])
        for site in evening.look:
            site.tidy()
            if site.left():
                raise RuntimeError(f"left prepared: {site.left()}")
        if kind is Load:
            jobs = evening.jobs()
            counts["plans"] = len(Load.plans)
            counts["wrong"] = sum(sorted(jobs.get(name, [])) != BOATS for name in Load.plans)
    return counts, took


def loads(seconds, threads):
    for name, pair in PAIRS.items():
        if any(map(servers.missing, pair)):
            continue
        with servers.started(*pair) as up:
            for way in LOADS[name]:
                counts, took = run(up, way, Load, seconds, threads)
                yield {"databases": name, "way": way, "seconds": round(took, 1), **{k: counts[k] for k in (
                    "plans", "wrong", "moves", "cycles", "stopped by a database", "waited too long", "local")}}


def speeds(seconds):
    """Each in three rounds, in turn with the others, and of the three the middle one: what else the machine does hits all of them."""
    for name, pair in list(PAIRS.items())[:2]:
        if any(map(servers.missing, pair)):
            continue
        for quick in (True, False):
            rounds = {}
            with servers.started(*pair, quick=quick) as up:
                for _ in range(ROUNDS):
                    for way in (TWO_PHASE, SOUND, KEPT, ROWS):
                        for threads in (1, 2, 4):
                            counts, took = run(up, way, Speed, seconds / ROUNDS, threads)
                            rounds.setdefault((way, threads), []).append(counts["committed"] / took)
            for (way, threads), found in rounds.items():
                yield {"databases": name, "way": way, "disk": not quick, "threads": threads, "a second": round(statistics.median(found)),
                       "rounds": [round(one) for one in found]}


def keep(figures, path):
    with open(path, "w") as file:
        json.dump(figures, file, indent=1)
        file.write("\n")


def main(words):
    reader = argparse.ArgumentParser(prog="examples/databases measure")
    reader.add_argument("--seconds", type=float, default=30, help="of each load; each speed takes a fifth of it")
    reader.add_argument("--threads", type=int, default=4, help="of each load")
    reader.add_argument("--only", choices=("loads", "speeds"), help="measure one of the two, and keep the other that FILE has")
    reader.add_argument("-o", metavar="FILE", help="the figures as JSON")
    asked = reader.parse_args(words)
    figures = {"loads": [], "speeds": []}
    if asked.only and asked.o and os.path.exists(asked.o):
        with open(asked.o) as file:
            figures = json.load(file)
    figures.update(seconds=asked.seconds, threads=asked.threads, cores=os.cpu_count(), python=sys.version.split()[0])
    for key, rows in (("loads", loads(asked.seconds, asked.threads)), ("speeds", speeds(asked.seconds / 5))):
        if asked.only in (None, key):
            figures[key] = []
            for row in rows:
                figures[key].append(row)
                if asked.o:
                    keep(figures, asked.o)
                print(", ".join(f"{k} {v}" if k not in ("databases", "way") else v for k, v in row.items()), flush=True)
