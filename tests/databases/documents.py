"""docs/DATABASES.md and the tests name the same facts and stories; its figures and its picture are those of docs/databases.json."""

import json
import re

from held import FACTS, ROOT, hold

from databases.draw import draw, tables

SETTINGS = {"default_transaction_isolation", "innodb_lock_wait_timeout"}  # of the databases, not ours


def documents(stories):
    text = (ROOT / "docs" / "DATABASES.md").read_text()
    named = set(re.findall(r"`([a-z]+(?:_[a-z0-9]+){2,})`", text)) - SETTINGS
    there = set(FACTS) | {f.__name__ for f in stories}
    for name in sorted(there - named):
        hold(f"docs/DATABASES.md names {name}", False)
    for name in sorted(named):
        hold(f"docs/DATABASES.md: there is a fact {name}", name in there)
    figures = json.loads((ROOT / "docs" / "databases.json").read_text())
    for row in tables(figures):
        hold(f"docs/DATABASES.md has the row {row}", row in text)
    hold("docs/databases.svg is the picture of docs/databases.json", (ROOT / "docs" / "databases.svg").read_text() == draw(figures))
