"""Two lifeboat stations in real databases. From the project's folder, with the service built by `tools/build service`:

    python3 examples/databases [SCENE ..] [--stations OLD NEW] [--sql]

Scenes: crossed, prepared, lying, killed; all if none is named. The databases are started for the purpose in a temporary folder, on Unix sockets,
and removed again: two PostgreSQLs, and then, where it is installed, MariaDB at the old station and PostgreSQL at the new one.
docs/DATABASES.md says what is shown.
"""

import argparse
import os
import sys
from pathlib import Path

sys.dont_write_bytecode = True
sys.path[0] = str(Path(__file__).resolve().parent.parent)

from databases import coordinator, draw, killing, lying, measure, scenes, servers  # noqa: E402
from databases.telling import Telling  # noqa: E402

SCENES = {"crossed": scenes.crossed, "prepared": scenes.prepared, "lying": lying.lying, "killed": killing.killed}


def main():
    sys.stdout.reconfigure(line_buffering=True)  # each step is told when it is done, to a pipe as well
    if sys.argv[1:2] in (["measure"], ["draw"]):
        return {"measure": measure, "draw": draw}[sys.argv[1]].main(sys.argv[2:])
    reader = argparse.ArgumentParser(prog="examples/databases", description=__doc__, formatter_class=argparse.RawDescriptionHelpFormatter)
    reader.add_argument("scene", nargs="*", metavar="SCENE", help=f"{', '.join(SCENES)}; with none named, all of them")
    reader.add_argument("--stations", nargs=2, metavar=("OLD", "NEW"), choices=list(servers.KINDS), help="postgresql or mariadb for each")
    reader.add_argument("--sql", action="store_true", help="show every statement that the databases get")
    asked = reader.parse_args()
    for name in asked.scene:
        if name not in SCENES:
            reader.error(f"there is no scene {name}; there are {', '.join(SCENES)}")
    if asked.stations and asked.stations[1] != "postgresql":
        reader.error("the new station is PostgreSQL's: at a MariaDB that is SERIALIZABLE the move would wait for the planning")
    if not Path(coordinator.SERVICE).is_file():
        sys.exit("The service is not built: run 'tools/build service' in the project's folder, or let OTM_SERVICE name one.")
    pairs = [asked.stations] if asked.stations else [("postgresql", "postgresql"), ("mariadb", "postgresql")]
    for pair in pairs:
        lacking = [words for words in map(servers.missing, set(pair)) if words]
        if lacking:
            print(f"\nLeft out, {' and '.join(pair)}: {'; '.join(lacking)}.")
            if asked.stations or pair == pairs[0]:
                sys.exit(1)
            continue
        with servers.started(*pair) as up:
            for name in asked.scene or SCENES:
                print(f"\n== {name}: {up[0].shown} at the old station, {up[1].shown} at the new one")
                SCENES[name](up, Telling(asked.sql))


if __name__ == "__main__":
    try:
        main()
    except KeyboardInterrupt:
        sys.exit(130)
    except BrokenPipeError:  # whoever read this has had enough
        os.dup2(os.open(os.devnull, os.O_WRONLY), sys.stdout.fileno())
        sys.exit(1)
