"""How a scene is told: a numbered step a line, with its reason below it, and on wish every statement that the databases got."""

import textwrap


class Telling:
    def __init__(self, sql=False, out=print):
        self.sql, self.out, self.step = sql, out, 0

    def title(self, text):
        self.step = 0
        self.out("\n" + "\n".join(textwrap.wrap(text, 110)))

    def tell(self, where, who, what, why=""):
        self.step += 1
        lines = textwrap.wrap(what, 84) + textwrap.wrap(why, 84)
        self.out(f"{self.step:3}  {where:12} {who:9} {lines[0]}")
        for line in lines[1:]:
            self.out(f"{'':28}{line}")

    def sum_up(self, text):
        self.out("     " + text)

    def heard(self, site, sql):
        if self.sql:
            self.out(f"{'':5}{site.station:12} {'':9} | {sql}")


def silent():
    return Telling(out=lambda _: None)
