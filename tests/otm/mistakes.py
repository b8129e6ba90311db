"""Mistakes in scripts and in commands get a sentence; help reads well, and what it shows is so."""

from held import hold, otm, test


BAD_LINES = [
    ("opne 1 floors 0", "'opne' is no call"),
    ("open", "open is written like 'open 1 floors 0 0'"),
    ("open 1", "open is written like"),
    ("open 1 floor 0", "open is written like"),
    ("open 1 floors", "an empty list is written none"),
    ("open x floors 0", "'x' stands where a first number is due"),
    ("open 1 floors 0 -1", "'-1' stands where a floor is due"),
    ("open 1 floors 4294967296", "floor 4294967296 is too large; 4294967295 is the largest"),
    ("open 1 floors " + "0 " * 39, "a message has room for 38 floors, and these are 39"),
    ("begin", "an empty list is written none"),
    ("begin 8", "site 8 is too large; 7 is the largest"),
    ("begin 0,0", "a site is listed twice"),
    ("begin 0;1", "'0;1' stands where a site is due"),
    ("begin 0 -> begin", "'begin' is no answer"),
    ("begin 0 ->", "no answer stands behind '->'"),
    ("-> ok", "without a call before its '->'"),
    ("ticket 1 site 0 1", "ticket is written like 'ticket 1 site 0 = 7'"),
    ("ticket 1 at 0 = 1", "ticket is written like"),
    ("ticket 1 site 256 = 1", "site 256 is too large; 255 is the largest"),
    ("ticket 1 site 0 = 4294967296", "ticket 4294967296 is too large"),
    ("ticket 1 site 0 = ١", "stands where a ticket is due"),
    ("prepared 1", "prepared is written like 'prepared 1 site 0'"),
    ("prepared 1 site", "prepared is written like"),
    ("abort", "abort is written like 'abort 1'"),
    ("abort 1 2", "abort is written like"),
    ("decide one", "'one' stands where a number is due"),
    ("forget 99999999999999999999999", "is too large"),
    ("sweep 1", "sweep stands alone, and here '1' follows it"),
    ("order 1 2", "order stands alone"),
    ("propose 1,2", "'1,2' stands where a number is due"),
    ("propose " + "1 " * 40, "a message has room for 39 numbers, and these are 40"),
    ("bytes", "bytes is written like"),
    ("bytes 1", "'1' is not written as bytes"),
    ("bytes 0x01", "'0x01' is not written as bytes"),
    ("decide 1 -> perhaps", "'perhaps' is no answer"),
    ("decide 1 -> commit one", "'commit one' is no answer"),
]


@test
def mistakes_in_scripts():
    for bad, sentence in BAD_LINES:
        said = otm("encode", given=f"# a script\nopen 1 floors 0\n{bad}\nsweep\n")
        told = said.status == 2 and said.err.startswith("standard input, line 3: ") and sentence in said.err
        hold(f"'{bad}' gets line 3 and a sentence", told and said.err.endswith(".\n") and said.bytes == b"", said)
    for command in ("run", "graph"):
        said = otm(command, "-", given="open 1 floors 0\nbegin x\n")
        hold(f"{command} tells mistakes as well, and plays nothing", said.status == 2 and "line 2: " in said.err and not said.out, said)
    said = otm("encode", given="foo\nsweep\nbar\n")
    hold("all mistakes are told at once", "line 1: " in said.err and "line 3: " in said.err and "line 2" not in said.err, said)
    said = otm("run", "-", given=b"\xff\xfe\x00")
    hold("bytes for a script", said.status == 2 and "is not text" in said.err, said)


@test
def mistakes_in_commands():
    for words, sentence in [
        (["fly"], "'fly' is no command of otm"),
        (["run"], "'otm run' needs a script"),
        (["graph"], "'otm graph' needs a script"),
        (["run", "a", "b"], "has no use for 'b'"),
        (["talk", "a"], "has no use for 'a'"),
        (["run", "no-such-file"], "no-such-file cannot be read: No such file or directory."),
        (["encode", "-o"], "-o needs the name of a file"),
        (["encode", "-", "-o", "/no/such/folder/x"], "/no/such/folder/x cannot be written"),
        (["run", "--hex", "x"], "knows no --hex"),
        (["decode", "--hex"], "is not hexadecimal text"),
        (["help", "me"], "There is no help on 'me'"),
    ]:
        said = otm(*words, given="order")
        hold(f"otm {' '.join(words)}: {sentence}", said.status == 2 and sentence in said.err and "Traceback" not in said.err, said)


@test
def help_reads_well():
    texts = [otm(*words) for words in ([], ["--help"], ["-h"], ["help"], ["run", "--help"])]
    hold("five ways to the same help", len({t.out for t in texts}) == 1 and all(t.status == 0 for t in texts))
    for command in ("run", "talk", "graph", "encode", "decode", "serve", "journal", "help script", "help refusals"):
        hold(f"help names otm {command}", f"otm {command}" in texts[0].out)
    hold("no line of it is over 120 wide", max(map(len, texts[0].out.splitlines())) <= 120)
    first = texts[0].out.split("A first script:")[1].split("The service is")[0]
    played = otm("run", "-", given=first)
    hold("the script in the help runs", played.status == 0 and "commit 1 " in played.out and "refused" not in played.out, played)
    language = otm("help", "script").out
    lines = [line.strip().split("   ")[0] for line in language.splitlines() if line.startswith("  ")]
    played = otm("encode", given="\n".join(lines))
    hold("every form that help script shows is one", played.status == 0 and len(lines) == 11, played)
    refusals = otm("help", "refusals").out
    hold("help refusals has 1 to 14", all(f"\n{r:>4}  " in "\n" + refusals for r in range(1, 15)), refusals)
