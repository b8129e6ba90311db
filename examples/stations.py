#!/usr/bin/env python3
"""The February story, without the coordinator and with it. From the project's folder:

    tools/build service
    python3 examples/stations.py

Two stations, each with its own database. One evening two transactions run at both: the move of the relief boat from the
old station to the new one, and the planning, which puts an inspection on the list of every boat that it finds at a station.
"""

import os
import sys
from pathlib import Path

ROOT = Path(__file__).resolve().parent.parent
sys.path.insert(0, str(ROOT / "clients" / "python"))

from delphrimock import Coordinator  # noqa: E402


class Station:
    """A database in small. It runs parts of transactions one after the other and gives each a ticket; that is its serial
    order. A part that is undone has never been."""

    def __init__(self, name, boats):
        self.name, self.boats = name, boats
        self.parts = []  # (who, what it does), in the station's own order
        self.tickets = 0

    def run(self, who, part):
        self.parts.append((who, part))
        self.tickets += 1
        return self.tickets

    def undo(self, who):
        self.parts = [p for p in self.parts if p[0] != who]

    def jobs(self):
        boats, jobs = set(self.boats), []
        for _, part in self.parts:
            part(boats, jobs)
        return jobs


def leave(boats, jobs):
    boats.discard("relief boat")


def arrive(boats, jobs):
    boats.add("relief boat")


def plan(boats, jobs):
    jobs.extend(f"inspect the {boat}" for boat in sorted(boats))


def show(stations):
    for s in stations:
        print(f"  {s.name}: {', '.join(s.jobs()) or 'no jobs'}")
    found = sum(s.jobs().count("inspect the relief boat") for s in stations)
    print(f"  The relief boat is {['never inspected', 'inspected once', 'inspected twice'][found]}.")


def without():
    print("Without the coordinator. The old station puts the move first, the new station the planning:")
    old, new = Station("old station", ["relief boat"]), Station("new station", ["harbour boat"])
    old.run("move", leave)
    old.run("planning", plan)
    new.run("planning", plan)
    new.run("move", arrive)
    print("  Both commit, since each station finds nothing wrong with its own work.")
    show([old, new])


def with_coordinator(service):
    print("With the coordinator. The same evening, and every ticket is reported:")
    old, new = Station("old station", ["relief boat"]), Station("new station", ["harbour boat"])
    with Coordinator(service) as c:
        c.open(first=1, floors=[0, 0])

        def part(number, site, what):
            c.ticket(number, site, (old, new)[site].run(number, what))
            c.prepared(number, site)

        def decide(number, what):
            committed = c.decide(number)
            print(f"  Transaction {number}, the {what}: {'commit' if committed else 'cycle, so it is undone at both stations'}.")
            if not committed:
                old.undo(number)
                new.undo(number)
            return committed

        move, planning = c.begin([0, 1]), c.begin([0, 1])
        part(move, 0, leave)
        part(planning, 0, plan)
        part(planning, 1, plan)
        part(move, 1, arrive)
        decide(move, "move")
        while not decide(planning, "planning"):
            planning = c.begin([0, 1])
            part(planning, 0, plan)
            part(planning, 1, plan)
        print(f"  An order that agrees with both stations: {', then '.join(map(str, c.order()))}.")
    show([old, new])


if __name__ == "__main__":
    service = os.environ.get("OTM_SERVICE") or ROOT / "target" / "bin" / "service"
    if not Path(service).is_file():
        sys.exit("The service is not built: run 'tools/build service' in the project's folder, or let OTM_SERVICE name one.")
    without()
    print()
    with_coordinator(str(service))
