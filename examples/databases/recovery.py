"""After a crash: every part that the databases hold prepared is committed or rolled back as the coordinator decided, by its journal.

    recover(coordinator, outcomes_of(journal), sites)                       all planners are down
    recover(coordinator, outcomes_of(journal), sites, planner="harbour")    that one is; the others are at work

It may be killed itself, and run again.
"""

import os
import subprocess
import sys

from .coordinator import ROOT, SERVICE, Refused
from .transactions import read_gid

COMMIT, ACTIVE = "commit", "active"
ROLLED_BACK = ("abort", "cycle")


def outcomes_of(journal):
    """Asks the journal what became of all numbers, each time it is called: {number: word}."""

    def outcomes():
        words = [sys.executable, "-B", str(ROOT / "tools" / "otm"), "journal", "outcomes", str(journal)]
        done = subprocess.run(words, capture_output=True, text=True, env={**os.environ, "OTM_SERVICE": SERVICE})
        if done.returncode:
            raise RuntimeError(f"otm journal outcomes: {done.stderr.strip()}")
        return {int(line.split()[0]): line.split()[1] for line in done.stdout.splitlines()}

    return outcomes


def recover(coordinator, outcomes, sites, planner=None):
    """What was done, as (what, number, site), in sequence: first at the coordinator, then at the sites."""
    left = [(i, gid, *read_gid(gid)) for i, site in enumerate(sites) for gid in site.left() if read_gid(gid)]
    left = [(i, gid, number) for i, gid, whose, number in left if planner in (None, whose)]
    done = []
    # Nobody will decide these any more, so they are aborted. If somebody did after all, the outcome that is read next says so.
    fates = outcomes()
    for number in sorted(fates) if planner is None else sorted({number for _, _, number in left}):
        if fates.get(number) == ACTIVE:
            try:
                coordinator.abort(number)
                done.append(("abort", number, None))
            except Refused as e:
                if e.number not in (2, 4):
                    raise
    fates = outcomes()
    for i, gid, number in left:
        fate = fates.get(number)
        if fate == COMMIT or fate in ROLLED_BACK:
            sites[i].settle_prepared(gid, fate == COMMIT)
            done.append(("commit" if fate == COMMIT else "roll back", number, i))
        else:  # not of this journal: whoever prepared it has to say
            done.append(("leave", number, i))
    return done
