#!/usr/bin/env python3
"""Brings the must-fail edits (crates/*/must-fail/*.edit) over to this toolchain, once.  They were written for the sources of the
commit LANDED; the toolchain's port and tools/port/respell.py made those of the commit PORTED of them.  Run at the top:

    python3 tools/port/edits.py run SCRATCH     makes the edits at LANDED, a few in each copy of the tree, and has the scripts turn the copies
    python3 tools/port/edits.py turn SCRATCH    writes each edit anew, so that it makes of PORTED what the scripts made of the edited LANDED
    python3 tools/port/edits.py check           holds the edits to the files as they stand

SCRATCH is a folder outside the repository; `run` takes some minutes for each two copies, and `run SCRATCH N` makes copy N alone (0: none edited).
An edit keeps its name, its meaning and its other lines.  Where its text still says the same it is left as it is.
"""
import concurrent.futures
import difflib
import glob
import importlib.util
import os
import re
import shutil
import subprocess
import sys

LANDED = "cdaf119"
PORTED = "85232a3"
KIT = os.path.dirname(os.path.dirname(os.path.realpath(shutil.which("rt") or "rt")))
# Files that have another name since PORTED.
MOVED = {"crates/promises/specs/Contracts.antt": "crates/promises/specs/Stated.antt"}
TOGETHER = 2
APART = 8
JOBS = 2


def git(where, *words):
    r = subprocess.run(["git", *words], cwd=where, capture_output=True)
    if r.returncode:
        raise SystemExit(f"git {' '.join(words)}: {r.stderr.decode()}")
    return r.stdout.decode("utf-8")


def read(path):
    with open(path, encoding="utf-8") as f:
        return f.read()


def write(path, text):
    with open(path, "w", encoding="utf-8") as f:
        f.write(text)


class Edit:
    """An edit: its file, its pairs, and its lines as they stand."""

    def __init__(self, path, text):
        self.path = path
        self.lines = text.split("\n")
        self.file = "crates/" + path.split("/")[1] + "/" + self.one("file: ")[0]
        self.pairs = list(zip(self.one("old: "), self.one("new: "), strict=True))
        self.raw = text

    def one(self, head):
        # An empty text is written with no blank after the colon.
        return [l[len(head):] for l in self.lines if l.startswith(head) or l == head.rstrip()]

    def text(self, file, pairs):
        """The edit's lines with another file and other pairs: the first stands where the first stood, and what is more at the end."""
        out, at, done = [], 0, False
        for l in self.lines:
            if l.startswith("file: "):
                out.append("file: " + file.split("/", 2)[2])
            elif re.match(r"old:( |$)", l):
                if at < len(pairs):
                    out.append("old: " + pairs[at][0])
            elif re.match(r"new:( |$)", l):
                if at < len(pairs):
                    out.append(("new: " + pairs[at][1]).rstrip() if not pairs[at][1] else "new: " + pairs[at][1])
                at += 1
                if at == len(self.pairs):
                    for o, n in pairs[at:]:
                        out += ["old: " + o, "new: " + n]
            else:
                out.append(l)
        return "\n".join(out)


def applied(text, pairs):
    """The text after the pairs, or None where a pair does not fit."""
    for o, n in pairs:
        if not o or text.count(o) != 1 or o == n:
            return None
        text = text.replace(o, n)
    return text


def hunks(a, b):
    """The lines of a and of b that differ: (from, to, from, to)."""
    m = difflib.SequenceMatcher(None, a, b, autojunk=False)
    return [(i, j, k, l) for tag, i, j, k, l in m.get_opcodes() if tag != "equal"]


def tree(root, commit):
    names = git(root, "ls-tree", "-r", "--name-only", commit, "--", "crates").split("\n")
    return [n for n in names if n]


def all_edits(root):
    names = [n for n in tree(root, LANDED) if n.endswith(".edit")]
    return [Edit(n, git(root, "show", f"{LANDED}:{n}")) for n in names]


def batches(root, edits):
    """Sets of edits: at most TOGETHER of one file in each, and APART lines away from one another."""
    where = {}
    texts = {}
    for e in edits:
        if e.file not in texts:
            texts[e.file] = git(root, "show", f"{LANDED}:{e.file}")
        t = texts[e.file]
        u = applied(t, e.pairs)
        if u is None:
            raise SystemExit(f"{e.path} does not fit {LANDED}")
        where[e.path] = [(h[0], h[1]) for h in hunks(t.split("\n"), u.split("\n"))]

    def near(a, b):
        return any(i < l + APART and k < j + APART for i, j in where[a.path] for k, l in where[b.path])

    def alone(e):
        # An edit that takes in a name stands alone in its file.
        return any(re.match(r"\s*(pub |ghost )*use ", o) for o, _ in e.pairs)

    out = []
    for e in sorted(edits, key=lambda e: (e.file, -len(e.pairs), e.path)):
        order = sorted(range(len(out)), key=lambda n: sum(x.file == e.file for x in out[n]))
        for n in order:
            same = [x for x in out[n] if x.file == e.file]
            if len(same) < TOGETHER and not any(near(e, x) or alone(e) or alone(x) for x in same):
                out[n].append(e)
                break
        else:
            out.append([e])
    return out, where


def port(copy, said):
    """The toolchain's port, with a folder of its own for what the scripts say."""
    code = f"""
import importlib.util, sys
sys.dont_write_bytecode = True
spec = importlib.util.spec_from_file_location("port", {KIT + "/port/port.py"!r})
m = importlib.util.module_from_spec(spec)
spec.loader.exec_module(m)
m.SAID = {said!r}
raise SystemExit(m.main([]))
"""
    r = subprocess.run([sys.executable, "-c", code], cwd=copy, stdout=subprocess.PIPE, stderr=subprocess.STDOUT, text=True)
    write(said + ".log", r.stdout)
    if r.returncode:
        raise SystemExit(f"{copy}: the port: {r.stdout[-2000:]}")


def fmt(copy):
    for c in sorted(os.listdir(os.path.join(copy, "crates"))):
        if os.path.isdir(os.path.join(copy, "crates", c, "src")):
            r = subprocess.run([KIT + "/bin/rt", "fmt"], cwd=os.path.join(copy, "crates", c), stdout=subprocess.PIPE, stderr=subprocess.STDOUT, text=True)
            if r.returncode:
                said = [l for l in r.stdout.split("\n") if "must-fail/" not in l]
                print(f"fmt {copy} {c}: {' '.join(said)[-500:]}", flush=True)


def load(path, name):
    spec = importlib.util.spec_from_file_location(name, path)
    m = importlib.util.module_from_spec(spec)
    spec.loader.exec_module(m)
    return m


def respell(root, copy):
    """tools/port/respell.py on a copy, with the names that it found in LANDED."""
    sys.dont_write_bytecode = True
    m = load(os.path.join(root, "tools/port/respell.py"), "respell")
    names = dict(l.split(" ") for l in read(os.path.join(root, "tools/port/names.txt")).split("\n") if l)
    crates = {c for c in os.listdir(os.path.join(copy, "crates")) if os.path.isdir(os.path.join(copy, "crates", c, "src"))}
    paths = [p for p in git(copy, "ls-files", "-co", "--exclude-standard", "--", "crates").split("\n") if re.match(r"crates/[^/]+/((specs|proofs)/.*\.antt|src/.*\.rt)$", p)]
    for p in paths:
        p = os.path.join(copy, p)
        if os.path.exists(p):
            text = read(p)
            new = m.respell(text, names, m.foreign(text, crates))
            if new != text:
                write(p, new)


def copy_of(root, scratch, n, edits):
    copy = os.path.join(scratch, f"batch{n}")
    if not os.path.isdir(copy):
        git(root, "clone", "-q", "--no-checkout", root, copy)
    git(copy, "checkout", "-q", "-f", "--detach", LANDED)
    git(copy, "clean", "-q", "-f", "-d", "-x")
    for e in edits:
        p = os.path.join(copy, e.file)
        new = applied(read(p), e.pairs)
        if new is None:
            raise SystemExit(f"{e.path} does not fit beside the others of batch {n}")
        write(p, new)
    git(copy, "add", "-A")
    if edits:
        git(copy, "-c", "user.name=x", "-c", "user.email=x@x", "commit", "-q", "-m", "edited")
    port(copy, os.path.join(scratch, f"said{n}"))
    respell(root, copy)
    fmt(copy)
    git(copy, "add", "-A")
    git(copy, "-c", "user.name=x", "-c", "user.email=x@x", "commit", "-q", "-m", "turned")
    print(f"batch {n}: {len(edits)} edits, turned", flush=True)
    if not edits and git(copy, "diff", "--name-only", PORTED, "HEAD", "--", "crates"):
        raise SystemExit(f"{copy}: with no edit the scripts give another tree than {PORTED}")
    return n


def run(root, scratch, only=None):
    os.makedirs(scratch, exist_ok=True)
    sets, _ = batches(root, all_edits(root))
    todo = [(0, [])] + list(enumerate(sets, 1))
    if only is not None:
        todo = [t for t in todo if t[0] in only]
    with concurrent.futures.ThreadPoolExecutor(JOBS) as pool:
        for f in concurrent.futures.as_completed([pool.submit(copy_of, root, scratch, n, e) for n, e in todo]):
            f.result()


def bare(line):
    return re.sub(r"[^A-Za-z0-9]", "", line).lower()


def lines_of(a, b):
    """For each line of a, about where it stands in b."""
    m = difflib.SequenceMatcher(None, [bare(l) for l in a], [bare(l) for l in b], autojunk=False)
    to = [0.0] * (len(a) + 1)
    for _, i, j, k, l in m.get_opcodes():
        for x in range(i, j):
            to[x] = k + (x - i) * (l - k) / (j - i)
    to[len(a)] = len(b)
    return to


TOKENS = re.compile(r"\s+|[A-Za-z0-9_'·′]+|.", re.S)


def words(text):
    """The text without its layout."""
    return [w for w in TOKENS.findall(re.sub(r",(\s*[}\])])", r"\1", text)) if w.strip()]


def flat(text):
    """The text without what the port changes of it: layout, brackets, and how names are written."""
    return re.sub(r"[\s()_]", "", text.replace("getD", "get_or").replace("·", ".")).lower()


def window(line, text):
    """The part of the line that spells the text in today's way: (from, to), or None."""
    want, spelled = flat(text), flat(line)
    if not want or spelled.count(want) != 1:
        return None
    places = [n for n, c in enumerate(line) if flat(c)]
    n = spelled.index(want)
    i, j = places[n], places[n + len(want) - 1] + 1
    # Brackets at its edges belong to it as well.
    while i and line[i - 1] == "(":
        i -= 1
    while j < len(line) and line[j] == ")":
        j += 1
    return i, j


def shared(a, b):
    """How many characters a and b share at the front, and at the end beyond those, by whole words."""
    x, y = TOKENS.findall(a), TOKENS.findall(b)
    i = 0
    while i < min(len(x), len(y)) and x[i] == y[i]:
        i += 1
    j = 0
    while j < min(len(x), len(y)) - i and x[-1 - j] == y[-1 - j]:
        j += 1
    return sum(map(len, x[:i])), sum(map(len, x[len(x) - j:]))


def narrow(text, line, new, guides):
    """A pair of texts within the line and what it becomes: as wide as the edit's own was, else the line, or part of a long one."""
    front, back = shared(line, new)

    def pair(i, j):
        old = line[i:j]
        if i <= front and len(line) - j <= back and text.count(old) == 1:
            return old, new[i:len(new) - (len(line) - j)]
        return None

    for g in guides:
        w = window(line, g)
        if w and pair(*w):
            return pair(*w)
    start = len(line) - len(line.lstrip())
    imports = re.match(r"\s*(pub |ghost )*use ", line)
    if not imports and len(line.strip()) <= 100 and pair(start, len(line.rstrip())):
        return pair(start, len(line.rstrip()))
    ends = [0]
    for w in TOKENS.findall(line):
        ends.append(ends[-1] + len(w))
    left, right = [e for e in ends if e <= front], [e for e in ends if e >= len(line) - back]
    for more in range(1, len(ends)):
        i, j = left[max(len(left) - 1 - more, 0)], right[min(more, len(right) - 1)]
        if pair(i, j) and line[i:j].strip() == line[i:j] and len(words(line[i:j])) > 3:
            return pair(i, j)
    return line, new


def pairs_of(text, wanted, parts, guides):
    """One-line texts that turn the text's lines into those wanted, hunk by hunk; None where a hunk has no such text."""
    a, b = text.split("\n"), wanted.split("\n")
    pairs = []
    for i, j, k, l in parts:
        if j - i == l - k:
            pairs += [narrow(text, x, y, guides) for x, y in zip(a[i:j], b[k:l]) if x != y]
        else:
            return None
    return pairs


def turn(root, scratch):
    edits = all_edits(root)
    sets, where = batches(root, edits)
    old_files, files = {}, {}
    for e in edits:
        old_files[e.file] = git(root, "show", f"{LANDED}:{e.file}")
        files[e.file] = git(root, "show", f"{PORTED}:{e.file}")
    wanted, turned, kept, hand = {}, {}, [], []
    for n, batch in enumerate(sets, 1):
        if not batch:
            continue
        copy = os.path.join(scratch, f"batch{n}")
        # Hunks outside the files of the edits would be hunks of no edit.
        touched = set(git(copy, "diff", "--no-renames", "--name-only", PORTED, "HEAD", "--", "crates").split("\n")) - {""}
        for p in sorted(touched - {e.file for e in batch}):
            print(f"batch {n}: {p} differs, and has no edit")
        for e in batch:
            if e.file not in touched:
                print(f"{e.path}: nothing of it is left in batch {n}")
        for file in sorted({e.file for e in batch}):
            here = [e for e in batch if e.file == file]
            a, b = files[file].split("\n"), read(os.path.join(copy, file)).split("\n")
            to = lines_of(old_files[file].split("\n"), a)
            own = {e.path: [] for e in here}
            for h in hunks(a, b):
                def far(e):
                    return min(max(to[i] - h[1], h[0] - to[j], 0) for i, j in where[e.path])
                best = min(here, key=far)
                if far(best) > 2:
                    print(f"{file}: lines {h} of batch {n} are far from its edits ({far(best)})")
                own[best.path].append(h)
            for e in here:
                t, at = [], 0
                for i, j, k, l in own[e.path]:
                    t += a[at:i] + b[k:l]
                    at = j
                wanted[e.path] = "\n".join(t + a[at:])
                want = wanted[e.path]
                same = applied(files[file], e.pairs)
                if same is not None and words(same) == words(want):
                    turned[e.path] = e.pairs
                    kept.append(e)
                    continue
                pairs = pairs_of(files[file], want, own[e.path], [o for o, _ in e.pairs])
                if pairs and applied(files[file], pairs) == want:
                    turned[e.path] = pairs
                else:
                    hand.append(e)
    return edits, sets, files, wanted, turned, kept, hand


def check(root):
    """Each edit fits the files as they stand, and none of LANDED's is missing."""
    bad = 0
    for e in all_edits(root):
        if not os.path.exists(os.path.join(root, e.path)):
            print(f"{e.path}: missing")
            bad += 1
    paths = sorted(glob.glob("crates/*/must-fail/*.edit"))
    for p in paths:
        e = Edit(p, read(p))
        if not os.path.exists(e.file):
            print(f"{p}: no file {e.file}")
            bad += 1
        elif not e.pairs or applied(read(e.file), e.pairs) is None:
            print(f"{p}: does not fit {e.file}")
            bad += 1
    print(f"{len(paths)} edits, {bad} that do not fit")
    return 1 if bad else 0


def main(argv):
    root = os.getcwd()
    if argv[:1] == ["run"] and len(argv) > 1:
        run(root, os.path.abspath(argv[1]), [int(n) for n in argv[2:]] or None)
    elif argv[:1] == ["turn"] and len(argv) == 2:
        edits, sets, files, wanted, turned, kept, hand = turn(root, os.path.abspath(argv[1]))
        for e in edits:
            file = MOVED.get(e.file, e.file)
            if e.path in turned:
                write(e.path, e.text(file, turned[e.path]))
        for e in hand:
            print(f"{e.path}: by hand; wanted in {e.file}:")
            print("".join(difflib.unified_diff(files[e.file].splitlines(True), wanted[e.path].splitlines(True), n=1)))
        print(f"{len(edits)} edits: {len(kept)} left as they are, {len(turned) - len(kept)} turned, {len(hand)} by hand")
    elif argv == ["check"]:
        return check(root)
    else:
        print(__doc__)
    return 0


if __name__ == "__main__":
    raise SystemExit(main(sys.argv[1:]))
