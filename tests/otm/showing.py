"""The examples: the story, the two stations, the planner in C; and that nothing but the standard library is used."""

import os
import subprocess
import sys

import held
from held import OTM, ROOT, Said, hold, make, test


@test
def stations():
    done = Said(subprocess.run([ROOT / "examples" / "stations.py"], capture_output=True, env=dict(os.environ, OTM_SERVICE=held.SERVICE)))
    before, _, after = done.out.partition("With the coordinator.")
    hold("without the coordinator the inspection is dropped", done.status == 0 and "is never inspected" in before, done)
    hold("with it, the planning is a cycle and begins anew", "2, the planning: cycle" in after and "3, the planning: commit" in after, done)
    hold("and the inspection is there, once", "is inspected once" in after, done)


@test
def the_story_in_one_command():
    done = Said(subprocess.run([ROOT / "examples" / "february"], capture_output=True, env=dict(os.environ, OTM_SERVICE=held.SERVICE)))
    for words in ("01 00 05 05 00 00 00 02\n", " cycle 2 ", " commit 3 ", "All 20 expected answers came.", "All 16 expected answers came."):
        hold(f"examples/february shows '{words.strip()}'", done.status == 0 and words in done.out, done)


PLANNER = ["yes", "no", "no", "no", "yes", "yes", "no", "no", "no", "the rows are bad (13)"]


@test
def planner():
    (ROOT / "target" / "otm").mkdir(parents=True, exist_ok=True)
    program = ROOT / "target" / "otm" / "planner"
    make(os.environ.get("CC", "cc"), "-std=c11", "-O2", "-Wall", "-Wextra", "-Werror", "-pedantic", "-Iinclude",
         "examples/c/planner.c", "target/staticlib/libccheck.a", "-o", str(program))
    done = Said(subprocess.run([program], capture_output=True))
    answers = [line.split(": ")[1].split(", ")[0] for line in done.out.splitlines() if line.startswith("order")]
    hold("the C example gets its ten answers", done.status == 0 and answers == PLANNER, done)


@test
def nothing_but_the_standard_library():
    known = sys.stdlib_module_names | {path.stem for path in ROOT.glob("tools/*.py")} | {"delphrimock"}
    for path in [OTM, *ROOT.glob("tools/*.py"), *ROOT.glob("clients/python/*.py"), *ROOT.glob("examples/*.py")]:
        used = {line.split()[1].split(".")[0] for line in path.read_text().splitlines() if line.startswith(("import ", "from "))}
        hold(f"{path.name} imports nothing else", used <= known, used - known)
