"""Scripts to bytes and back."""

import random

from held import ROOT, hold, otm, parse, scripts, test, unparse


# RULES, The service: the table of bytes, written off by hand.
STORY = """\
open 1 floors 0 0
begin 0,1
begin 0,1
ticket 1 site 0 = 1
ticket 2 site 0 = 2
ticket 2 site 1 = 1
ticket 1 site 1 = 2
prepared 1 site 0
prepared 1 site 1
prepared 2 site 0
prepared 2 site 1
decide 1
decide 2
order
sweep
order
"""
STORY_BYTES = """\
01 00 0d 00 00 00 00 01 00 00 00 00 00 00 00 00
01 00 02 01 03
01 00 02 01 03
01 00 0a 02 00 00 00 01 00 00 00 00 01
01 00 0a 02 00 00 00 02 00 00 00 00 02
01 00 0a 02 00 00 00 02 01 00 00 00 01
01 00 0a 02 00 00 00 01 01 00 00 00 02
01 00 06 03 00 00 00 01 00
01 00 06 03 00 00 00 01 01
01 00 06 03 00 00 00 02 00
01 00 06 03 00 00 00 02 01
01 00 05 05 00 00 00 01
01 00 05 05 00 00 00 02
01 00 01 09
01 00 01 07
01 00 01 09
"""


@test
def the_bytes_of_the_rules():
    hold("encode --hex gives the bytes of RULES", otm("encode", "--hex", given=STORY).out == STORY_BYTES)
    hold("encode gives the same as bytes", otm("encode", given=STORY).bytes == bytes.fromhex(STORY_BYTES))
    hold("decode gives the script again", otm("decode", given=bytes.fromhex(STORY_BYTES)).out == STORY)
    hold("decode --hex too", otm("decode", "--hex", given=STORY_BYTES).out == STORY)
    rules = (ROOT / "docs" / "RULES.md").read_text()
    hold("RULES still has these bytes", all(f"`{line}`" in rules for line in STORY_BYTES.splitlines()))


@test
def other_forms():
    for text, data in [
        ("begin 1, 0", "0100020103"),
        ("begin 0 1", "0100020103"),
        ("begin 0,1,2,3,4,5,6,7", "01000201ff"),
        ("begin none", "0100020100"),
        ("  begin\t0 ,1  # sites", "0100020103"),
        ("begin 0,1 -> begin 7", "0100020103"),
        ("propose", "01000108"),
        ("propose none", "01000108"),
        ("propose 2 1", "010009080000000200000001"),
        ("open 4294967295 floors none", "01000500ffffffff"),
        ("abort 3", "0100050400000003"),
        ("forget 4294967295", "01000506ffffffff"),
        ("prepared 1 site 255", "01000603 00000001 ff"),
        ("bytes 01 0203 fF", "010203ff"),
        ("# nothing\n\n   \n", ""),
    ]:
        said = otm("encode", given=text)
        hold(f"'{text}' is {data}", said.status == 0 and said.bytes == bytes.fromhex(data), said)
    most = otm("encode", given="propose " + " ".join(["1"] * 39) + "\nopen 1 floors " + " ".join(["0"] * 38))
    hold("39 numbers and 38 floors fit", most.status == 0 and len(most.bytes) == 2 * 160, most)


@test
def bytes_to_script_and_back():
    """Decoding gives a script that encodes to the same bytes, whatever they are."""
    dice = random.Random(1)
    good = True
    for n in range(3000):
        stream = b""
        for _ in range(dice.randrange(4)):
            body = bytes([dice.choice([*range(11), 255])]) + dice.randbytes(dice.choice([0, 1, 4, 4, 5, 8, 9, 12, 13, 150, 157]))
            stream += bytes([1]) + len(body).to_bytes(2, "big") + body
        stream += dice.randbytes(dice.randrange(6)) if n % 2 else b""
        steps, mistakes = parse("\n".join(unparse(stream)))
        good = good and not mistakes and b"".join(s.message for s in steps) == stream
    hold("3,000 random streams come back from their scripts", good)
    for path in scripts():
        data = otm("encode", str(path)).bytes
        again = otm("encode", given=otm("decode", given=data).bytes).bytes
        hold(f"{path.name} comes back from its bytes", data and again == data)


@test
def malformed_bytes_are_told():
    for data, words in [
        ("010000", "refused 10: its body is empty"),
        ("0100010a", "refused 10: its kind is 10"),
        ("0100020700", "refused 10: its kind is 7, sweep, and sweep has no body of 2 bytes"),
        ("02", "refused 11, the last line: its version is 2"),
        ("0100a008" + "00" * 159, "refused 10: its kind is 8, propose, and propose has no body of 160 bytes"),
        ("0100a108" + "00" * 160, "refused 11, the last line: its length is 161"),
        ("01", "refused 11, the last line: the input ends inside the message"),
        ("0100050400", "refused 11, the last line: the input ends inside the message"),
    ]:
        said = otm("decode", "--hex", given=data)
        hold(f"decode says of {data[:16]}: {words}", said.status == 0 and words in said.out, said)
