"""Threads that work at both stations, for the measure."""

import random
import threading
import time

from .coordinator import Refused
from .sites import Failed
from .stations import NEW, OLD, arrives, boats, leaves, note, plan

BOATS = [f"boat {i}" for i in range(6)]


class Worker(threading.Thread):
    """Runs `once` again and again until the time is over, with connections of its own."""

    def __init__(self, evening, coordinator, tickets, counts, end, seed):
        super().__init__()
        self.coordinator, self.tickets, self.counts, self.end = coordinator, tickets, counts, end
        self.evening, self.sites, self.seed, self.random, self.error = evening, evening.sites(), seed, random.Random(seed), None

    def run(self):
        n = 0
        try:
            while time.monotonic() < self.end:
                n += 1
                self.once(f"{self.seed}.{n}")
        except BaseException as e:
            self.error = e

    def begin(self, name):
        while True:
            try:
                return self.evening.begin(self.coordinator, name, self.tickets, self.sites)
            except Refused as e:
                if e.number != 7:
                    raise
                if not self.coordinator.sweep():  # all slots are taken: wait for the others
                    time.sleep(0.002)

    def tried(self, t, parts):
        """Whether the transaction went through."""
        try:
            for i, work in parts:
                t.part(i, work)
            done = t.decide()
            if done:
                if self.random.random() < 0.5:
                    t.prepared.reverse()
                t.commit()
            else:
                t.roll_back(told=True)
            self.counts["committed" if done else "cycles"] += 1
            return done
        except Failed as e:
            t.roll_back()
            self.counts["waited too long" if "timeout" in str(e) else "stopped by a database"] += 1
        finally:
            if self.coordinator:
                self.coordinator.sweep()


class Load(Worker):
    where, plans = {}, []  # shared: where each boat was last seen, and the plans that were committed

    def once(self, name):
        kind = self.random.random()
        if kind < 0.1:
            self.refit(self.sites[self.random.randrange(2)])
        elif kind < 0.5:
            boat = self.random.choice(BOATS)
            here = self.where[boat]
            if self.both(name, {here: lambda site: leaves(site, boat), 1 - here: lambda site: arrives(site, boat)}):
                self.where[boat] = 1 - here
                self.counts["moves"] += 1
        elif self.both(name, dict.fromkeys((OLD, NEW), lambda site: plan(site, name))):
            self.plans.append(name)

    def both(self, name, works):
        parts = list(works.items())
        self.random.shuffle(parts)
        return self.tried(self.begin(name), [(i, self.dawdling(work)) for i, work in parts])

    def dawdling(self, work):
        def later(site):
            if self.random.random() < 0.3:
                time.sleep(self.random.random() * 0.004)
            return work(site)
        return later

    def refit(self, site):
        """Local work, of which nobody hears: a boat goes from the list and comes back."""
        try:
            site.begin_local()
            here = boats(site)
            if here:
                boat = self.random.choice(here)
                leaves(site, boat)
                arrives(site, boat)
            site.query("COMMIT")
            self.counts["local"] += 1
        except Failed:
            site.query("ROLLBACK")


class Speed(Worker):
    def once(self, name):
        self.tried(self.begin(name), [(i, lambda site: note(site, name)) for i in (OLD, NEW)])


def worked(workers):
    began = time.monotonic()
    for worker in workers:
        worker.start()
    for worker in workers:
        worker.join()
    for worker in workers:
        if worker.error:
            raise worker.error
    return time.monotonic() - began
