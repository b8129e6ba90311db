"""`otm graph`: what is drawn, and that all of it lies in the picture."""

import tempfile
import xml.etree.ElementTree as xml
from pathlib import Path

from held import ROOT, hold, otm, test


SVG = "{http://www.w3.org/2000/svg}"


def drawn(text, *words):
    said = otm("graph", "-", *words, given=text)
    tree = xml.fromstring(said.bytes)
    texts = [t.text for t in tree.iter(SVG + "text")]
    arrows = [e for e in tree.iter() if e.get("marker-end")]
    return tree, texts, arrows


def inside(tree):
    wide, high = float(tree.get("width")), float(tree.get("height"))
    for e in tree.iter():
        for key, most in (("x", wide), ("x1", wide), ("x2", wide), ("y", high), ("y1", high), ("y2", high)):
            if e.get(key) is not None and not 0 <= float(e.get(key)) <= most:
                return False
    return True


def work(number, *tickets):
    """One transaction's reports and decision; tickets are pairs of site and ticket."""
    return "".join(f"ticket {number} site {s} = {k}\nprepared {number} site {s}\n" for s, k in tickets) + f"decide {number}\n"


@test
def graphs():
    begun = "open 1 floors 0 0\nbegin 0,1\nbegin 0,1\n"
    tree, texts, arrows = drawn(begun + work(1, (0, 1), (1, 1)) + work(2, (0, 2), (1, 2)))
    hold("two that agree: an arrow a site, both to the right", len(arrows) == 2 and all(float(a.get("x1")) < float(a.get("x2")) for a in arrows))
    hold("their order stands above", "Order: 1 2" in texts and "2 kept transactions" in texts, texts)
    hold("sites, numbers and tickets stand there", {"site 0", "site 1", "1", "2"} <= set(texts), texts)

    crossed = begun + "ticket 1 site 0 = 1\nticket 2 site 0 = 2\nticket 2 site 1 = 1\nticket 1 site 1 = 2\n" + "".join(
        f"prepared {n} site {s}\n" for n in (1, 2) for s in (0, 1)) + "decide 1\ndecide 2\n"
    tree, texts, arrows = drawn(crossed)
    hold("crossed: only 1 is kept, and has no arrow", not arrows and "1 kept transaction" in texts and "Order: 1" in texts, texts)
    tree, texts, arrows = drawn(crossed, "--cycles")
    hold("with --cycles: the arrow back is red", [a.get("marker-end") for a in arrows] == ["url(#s0)", "url(#red)"])
    hold("and 2 is said to be aborted", "cycle, aborted" in texts, texts)

    tree, texts, arrows = drawn("open 1 floors 0\nbegin 0\n")
    hold("nothing kept", "0 kept transactions" in texts and not arrows, texts)
    tree, texts, arrows = drawn(begun + work(1, (0, 1), (1, 1)) + work(2, (0, 2), (1, 2)) + "forget 1\n")
    hold("what is forgotten is not drawn", "Order: 2" in texts, texts)
    tree, texts, arrows = drawn(begun + work(2, (0, 4), (1, 4)) + work(1, (0, 3), (1, 3)) + "bytes 02\nsweep\n")
    hold("what comes before an 11 is drawn", "Order: 1 2" in texts, texts)

    full = "open 4294967264 floors" + " 0" * 8 + "\n" + "begin 0,1,2,3,4,5,6,7\n" * 32
    full += "".join(work(n, *[(s, n) for s in range(8)]) for n in range(4294967264, 4294967296))
    tree, texts, arrows = drawn(full)
    hold("the largest table: 31 arrows at each of 8 sites", len(arrows) == 31 * 8)
    hold("all of it lies within the picture", inside(tree))
    ends = sorted((float(r.get("x")), float(r.get("x")) + float(r.get("width"))) for r in tree.iter(SVG + "rect") if r.get("rx") == "10")
    hold("no two columns touch", len(ends) == 32 and all(a[1] < b[0] for a, b in zip(ends, ends[1:])))

    said = otm("graph", "-", given="sweep\n")
    hold("a table that was never opened", said.status == 2 and "never opens the table" in said.err and not said.out, said)
    with tempfile.TemporaryDirectory() as folder:
        said = otm("graph", str(ROOT / "examples" / "february-crossed.otm"), "-o", f"{folder}/a.svg")
        hold("-o writes a file", said.status == 0 and not said.out and Path(f"{folder}/a.svg").read_bytes().startswith(b"<svg "), said)
