"""The figures of `measure` as a picture, and as the tables of docs/DATABASES.md.

    python3 examples/databases draw docs/databases.json -o docs/databases.svg
"""

import argparse
import json
from html import escape

WIDTH, LEFT, BAR, STEP = 900, 330, 14, 20  # all in pixels; bars begin at LEFT
RIGHT = WIDTH - 130  # behind the longest bar there is room for its words
WRONG, FINE = "#c0392b", "#2e7d5b"
THREADS = {1: "#9db8d2", 2: "#5f8fbf", 4: "#2b5d8c"}


class Picture:
    def __init__(self):
        self.parts, self.y = [], 0

    def text(self, x, words, size=12, anchor="start", weight="normal", fill="#222"):
        self.parts.append(f'<text x="{x}" y="{self.y + BAR - 3}" font-size="{size}" text-anchor="{anchor}" font-weight="{weight}" '
                          f'fill="{fill}">{escape(words)}</text>')

    def head(self, words, below=""):
        self.y += 14
        self.text(12, words, 15, weight="bold")
        self.y += STEP
        if below:
            self.text(12, below, fill="#555")
            self.y += STEP

    def group(self, words):
        self.y += 6
        self.text(12, words, weight="bold")

    def bar(self, label, share, words, colour, least=None, most=None):
        """A bar; least and most: a thin line from the one to the other."""
        self.text(LEFT - 8, label, anchor="end")
        wide, end = max(1, round((RIGHT - LEFT) * share)), LEFT
        self.parts.append(f'<rect x="{LEFT}" y="{self.y}" width="{wide}" height="{BAR}" fill="{colour}"/>')
        if most is not None:
            start, end = (LEFT + round((RIGHT - LEFT) * one) for one in (least, most))
            self.parts.append(f'<rect x="{start}" y="{self.y + BAR // 2}" width="{max(1, end - start)}" height="1" fill="#222"/>')
        self.text(max(LEFT + wide, end) + 6, words)
        self.y += STEP

    def done(self):
        return (f'<svg xmlns="http://www.w3.org/2000/svg" width="{WIDTH}" height="{self.y + 14}" viewBox="0 0 {WIDTH} {self.y + 14}" '
                f'font-family="sans-serif">\n<rect width="100%" height="100%" fill="white"/>\n' + "\n".join(self.parts) + "\n</svg>\n")


def grouped(rows, key):
    groups = {}
    for row in rows:
        groups.setdefault(row[key], []).append(row)
    return groups.items()


def draw(figures):
    picture = Picture()
    how = f"random moves, plans and local work from {figures['threads']} threads, {figures['seconds']:g} s each"
    picture.head("Plans that miss or repeat a boat", how)
    most = max([row["wrong"] / row["plans"] for row in figures["loads"] if row["plans"]] + [0.01])
    for name, rows in grouped(figures["loads"], "databases"):
        picture.group(name)
        picture.y += STEP
        for row in rows:
            share = row["wrong"] / row["plans"] if row["plans"] else 0
            picture.bar(row["way"], share / most, f"{row['wrong']} of {row['plans']}", WRONG if row["wrong"] else FINE)
    for disk, words in ((False, "nothing forced to the disk"), (True, "everything forced to the disk as usual")):
        chosen = [row for row in figures["speeds"] if row["disk"] == disk]
        if not chosen:
            continue
        picture.head("Transactions a second, " + words, "a part at each database, no data in common; light to dark: 1, 2 and 4 threads; "
                     "a line from the least to the most of three rounds")
        most = max(max(row["rounds"]) for row in chosen) or 1
        for name, rows in grouped(chosen, "databases"):
            picture.group(name)
            picture.y += STEP
            for way, bars in grouped(rows, "way"):
                for i, row in enumerate(bars):
                    picture.bar(way if i == 1 else "", row["a second"] / most, str(row["a second"]), THREADS[row["threads"]],
                                min(row["rounds"]) / most, max(row["rounds"]) / most)
                picture.y += 5
    return picture.done()


def tables(figures):
    """The rows of both tables, as Markdown."""
    lines = []
    for row in figures["loads"]:
        kinds = ("databases", "way", "plans", "wrong", "moves", "cycles", "stopped by a database", "waited too long")
        lines.append("| " + " | ".join(str(row[kind]) for kind in kinds) + " |")
    speeds = {}
    for row in figures["speeds"]:
        speeds.setdefault((row["databases"], row["way"]), []).append(row)
    for (name, way), rows in speeds.items():
        rows = sorted(rows, key=lambda row: row["disk"])
        cells = [f"{row['a second']} ({min(row['rounds'])} to {max(row['rounds'])})" for row in rows]
        lines.append("| " + " | ".join(map(str, (name, way, *cells))) + " |")
    return lines


def main(words):
    reader = argparse.ArgumentParser(prog="examples/databases draw")
    reader.add_argument("figures", metavar="FILE", help="what measure wrote")
    reader.add_argument("-o", metavar="FILE", required=True, help="the picture")
    asked = reader.parse_args(words)
    with open(asked.figures) as file:
        figures = json.load(file)
    with open(asked.o, "w") as file:
        file.write(draw(figures))
    print("\n".join(tables(figures)))
