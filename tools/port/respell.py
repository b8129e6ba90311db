#!/usr/bin/env python3
"""Brings the names of this repository's own definitions and lemmas to snake case, once: `firstTrue` to `first_true`,
`length-drop` to `length_drop`.  Run at the top, after the toolchain's own port of an older repository.

Renamed are the names that files of specs/ and proofs/ declare (definitions, lemmas, fields, constructors); not the goals of a
function's proof, whose names are the toolchain's, and not what a file takes from a library.  Functions of src/, strings, inputs
and outputs keep their names.  `--plan` prints the names that change, and those that would fall together, and writes nothing;
`--edits DIR` respells the edits below DIR instead of the sources.
"""
import collections
import glob
import re
import sys

TOKEN = re.compile(r"""[^\s(){}\[\],;."`|]+""")
DECLARED = re.compile(r"""^\s*(?:(?:abbrev|unfoldable|pub|data|record|ruleset|syntax)\s+)*([^\s(){}\[\],;.:"]+)(?=\s+(?:\(.*?\)\s*|\{.*?\}\s*)*:(?:\s|$))""")
USE = re.compile(r"^(?:pub |ghost )*use ([^\s{;]+)\.\{([^}]*)\}", re.M)
USE_AS = re.compile(r"(\S+) as (\S+)")
# A lemma that would have a definition's name goes to this one instead.
INSTEAD = {
    "body-of": "body_of_lem",
    "call-result": "call_result_lem",
    "check-result": "check_result_lem",
    "first-true": "first_true_lem",
    "free-slot": "free_slot_lem",
    "is-active": "is_active_lem",
    "line-from": "line_from_lem",
    "message-with": "message_with_lem",
    "order-line": "order_line_lem",
    "proposal-line": "proposal_line_lem",
    "report-in": "report_in_lem",
    "row-of-number": "row_of_number_lem",
    "slice-ty": "slice_ty_of",
    "swept-row": "swept_row_lem",
    "word-of-lt": "word_of_lt_lem",
    "write-result": "write_result_lem",
}
# Words of an older library, inside names.
OLD_WORDS = [("getD", "get_or")]


def snake(name):
    if name in INSTEAD:
        return INSTEAD[name]
    for old, new in OLD_WORDS:
        name = re.sub(rf"(?<![A-Za-z]){old}(?![a-z])", new, name)
    if name[:1].isupper() and "-" not in name and "→" not in name:
        return name
    head = name[:1]
    name = re.sub(r"(?<=[a-z0-9])([A-Z])(?=[a-z0-9])", lambda m: "_" + m.group(1).lower(), name)
    name = re.sub(r"(?<=[a-z0-9_′'])-(?=[A-Za-z0-9_])", "_", name)
    if head.isupper():
        name = head + name[1:]
    return name


def antt():
    return sorted(glob.glob("crates/*/specs/**/*.antt", recursive=True) + glob.glob("crates/*/proofs/**/*.antt", recursive=True))


def rust():
    return sorted(glob.glob("crates/*/src/**/*.rt", recursive=True))


def read(path):
    with open(path, encoding="utf-8") as f:
        return f.read()


def code(text):
    """The text without comments."""
    return "\n".join(re.sub(r"(^|\s)(--|//).*", r"\1", l) for l in text.split("\n"))


def foreign(text, crates):
    """Names that a file takes from elsewhere than this repository's crates, under their own spelling."""
    out = set()
    for path, names in USE.findall(text):
        own = path.split(".")[0] == "Rattle" and len(path.split(".")) > 1 and path.split(".")[1] in crates
        if not own:
            for n in names.split(","):
                m = USE_AS.match(n.strip())
                out.add(m.group(2) if m else n.strip())
    return out


def plan():
    crates = {p.split("/")[1] for p in glob.glob("crates/*/src")}
    declared, goals, words = set(), set(), collections.Counter()
    for p in antt():
        text = code(read(p))
        for l in text.split("\n"):
            m = DECLARED.match(l)
            if m:
                (goals if re.search(r":\s*(tie|goal)\.", l) else declared).add(m.group(1))
        words.update(TOKEN.findall(text))
    for p in rust():
        words.update(TOKEN.findall(code(read(p))))
    names = {n: snake(n) for n in declared if n not in goals and snake(n) != n}
    taken = collections.Counter(names.values())
    clash = sorted(n for n, s in names.items() if taken[s] > 1)
    for p in antt() + rust():
        here = set(TOKEN.findall(code(read(p))))
        clash += [f"{n} in {p}:" for n in sorted(here) if n in names and names[n] in here]
    return crates, names, clash


def respell(text, names, skip):
    def one(m):
        w = m.group(0)
        if w in names and w not in skip:
            before = text[max(0, m.start() - 6):m.start()]
            if re.search(r"(?:tie|goal)\.$", before):
                return w
            return names[w]
        return w

    return TOKEN.sub(one, text)


def main(argv):
    crates, names, clash = plan()
    if "--plan" in argv:
        for n in sorted(names):
            print(n, names[n])
        for n in clash:
            print("CLASH", n)
        return 0
    if "--edits" in argv:
        raise SystemExit("see tools/port/edits.py")
    for p in antt() + rust():
        text = read(p)
        new = respell(text, names, foreign(text, crates))
        if new != text:
            with open(p, "w", encoding="utf-8") as f:
                f.write(new)
    with open("tools/port/names.txt", "w", encoding="utf-8") as f:
        f.write("".join(f"{n} {names[n]}\n" for n in sorted(names)))
    return 0


if __name__ == "__main__":
    raise SystemExit(main(sys.argv[1:]))
