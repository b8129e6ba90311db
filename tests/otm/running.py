"""`otm run`: answers in plain words, expected answers, a service that is missing or strange."""

import os
import subprocess
import tempfile
from pathlib import Path

from held import ROOT, Said, hold, otm, parse, scripts, test


REFUSED = {
    1: "sweep",
    2: "open 1 floors 0\ndecide 1",
    3: "open 1 floors 0\nbegin 1",
    4: "open 1 floors 0\nbegin 0\ndecide 1",
    5: "open 1 floors 5\nbegin 0\nticket 1 site 0 = 5",
    6: "open 1 floors 0\nbegin 0\nbegin 0\nticket 1 site 0 = 5\nticket 2 site 0 = 5",
    7: "open 1 floors 0\n" + "begin 0\n" * 33,
    8: "open 4294967295 floors 0\nbegin 0\nbegin 0",
    9: "open 1 floors 0\nbegin 0\nbegin 0\nticket 1 site 0 = 1\nprepared 1 site 0\ndecide 1\nforget 1",
    10: "bytes 01 00 01 0a",
    11: "bytes 02",
}


@test
def runs_are_explained():
    for number, text in REFUSED.items():
        said = otm("run", "-", given=text)
        lines = said.out.splitlines()
        at = [i for i, line in enumerate(lines) if f"refused {number} " in line]
        hold(f"refusal {number} is told", said.status == 0 and len(at) == 1, said)
        rest = "\n".join(lines[at[0] :]) if at else ""
        hold(f"refusal {number} is told with what to do", "What to do: " in rest, said)
    said = otm("run", "-", given="open 1 floors 0 0\nbegin 0,1\nsweep\norder\npropose none\n")
    for words in ("open: sites 0 and 1", "transaction 1 has begun at sites 0 and 1", "nothing could be forgotten",
                  "the order is empty", "this is an order of the kept ones"):
        hold(f"a run says '{words}'", words in said.out, said)
    said = otm("run", "-", given="bytes 01 00\nbytes 01 09 01 00 01 09\nbytes 02\nsweep\n")
    hold("bytes may be a part of a message", "1  bytes 01 00                  no answer" in said.out, said)
    hold("or several", said.out.count("refused 1 ") == 2, said)
    hold("what is behind an 11 is not read", "4  sweep                        not read" in said.out, said)
    hold("a script without calls", otm("run", "-", given="# none\n").out == "The script has no calls.\n")


@test
def expectations():
    for path in scripts():
        said = otm("run", str(path))
        steps, _ = parse(path.read_text())
        hold(f"{path.name} expects something of each call", all(s.expected for s in steps))
        hold(f"{path.name} gets what it expects", said.status == 0 and f"All {len(steps)} expected answers came." in said.out, said)
    said = otm("run", "-", given="open 1 floors 0 -> ok\nbegin 0 -> begin 2\n")
    hold("a wrong expectation is told", said.status == 1 and "NOT AS EXPECTED: the script expects 'begin 2' here." in said.out, said)
    hold("and counted", "1 of 2 expected answers did not come." in said.out, said)
    hold("there is a script for each trial", {p.name[:3] for p in scripts() if p.parent.name == "trials"} >= {f"P{n:02}" for n in range(1, 12)})


@test
def no_service():
    said = otm("run", "-", given="sweep", service="/no/such/service")
    hold("OTM_SERVICE names nothing", said.status == 2 and "OTM_SERVICE names '/no/such/service'" in said.err, said)
    with tempfile.TemporaryDirectory() as folder:
        for part in ("tools", "clients"):
            subprocess.run(["cp", "-r", ROOT / part, folder], check=True)
        bare = {k: v for k, v in os.environ.items() if k != "OTM_SERVICE"}
        for words in (["run", "-"], ["talk"], ["graph", "-"]):
            done = Said(subprocess.run([f"{folder}/tools/otm", *words], input=b"sweep", capture_output=True, env=bare))
            sentence = "The service is not built: run 'tools/build service' in the project's folder"
            hold(f"otm {words[0]} without a service", done.status == 2 and done.err.startswith(sentence) and len(done.err.splitlines()) == 1, done)
        done = Said(subprocess.run([f"{folder}/tools/otm", "encode"], input=b"sweep", capture_output=True, env=bare))
        hold("encode needs none", done.status == 0 and done.bytes == bytes.fromhex("01000107"), done)


@test
def strange_services():
    with tempfile.TemporaryDirectory() as folder:
        for name, program, words in [
            ("says ok to all", "while true; do echo ok; done | head -100", "this is no answer"),
            ("says nothing", "cat >/dev/null", "ended without an answer"),
            ("ends at once", "exit 3", "ended without an answer"),
            ("says nonsense", "echo '%s\xe9'; echo refused; echo refused x", "this is no answer"),
        ]:
            path = Path(folder) / name.replace(" ", "_")
            path.write_text(f"#!/bin/sh\n{program}\n")
            path.chmod(0o755)
            said = otm("run", "-", given="sweep\nbytes 02\n", service=str(path))
            hold(f"a service that {name} is told", words in said.out + said.err and "Traceback" not in said.err, said)
            said = otm("graph", "-", given="open 1 floors 0\nsweep\n", service=str(path))
            hold(f"a graph by a service that {name}", said.status == 2 and "Traceback" not in said.err and "<svg" not in said.out, said)
