"""The picture of the kept transactions: a column for each, in an order that agrees with all tickets; a line for each site.

At a site an arrow leads from each transaction to every other further along its line, so only the arrow to the next one is
drawn. In a good order all arrows point to the right. One that was aborted because of a cycle, where such are shown, stands
dashed behind the others, with its arrows from and to those that were committed when it was decided and are still kept; the
arrows from it run against the order and are red, and one of them closes the cycle.
"""

COLUMN, LANE, BOX = 96, 58, 60
LEFT, TOP, HEAD, FOOT = 136, 96, 64, 74
INK, FAINT, RED = "#1d2b36", "#8a97a1", "#c0261c"
COLOURS = ("#1f6fb2", "#b25c00", "#2c7d3f", "#8e3a8c", "#7a6a00", "#00777a", "#a83252", "#4a4fb0")
LEGEND = (
    "In the rounds: the tickets. At each site a smaller ticket goes before",
    "every larger one; only the arrow to the next is drawn.",
)


def picture(order, tickets, cycles=()):
    """The SVG text. `order` is the kept numbers in order, `tickets` gives each number's tickets by site, `cycles` has pairs:
    one that was aborted because of a cycle, and those that were committed then."""
    shown = list(order) + [n for n, _ in cycles]
    sites = sorted({s for n in shown for s in tickets[n]})
    column = {n: LEFT + i * COLUMN for i, n in enumerate(shown)}
    bottom = TOP + HEAD + len(sites) * LANE
    width, height = max(560, LEFT + len(shown) * COLUMN), bottom + FOOT
    title = f"{len(order)} kept transaction{'' if len(order) == 1 else 's'}"
    out = [
        f'<svg xmlns="http://www.w3.org/2000/svg" width="{width}" height="{height}" viewBox="0 0 {width} {height}" '
        f'font-family="Helvetica, Arial, sans-serif" fill="{INK}">',
        f"<title>{title} and the arrows between them</title>",
        f'<rect width="{width}" height="{height}" fill="#ffffff"/>',
        "<defs>",
        *(_arrowhead(f"s{s}", COLOURS[s % 8]) for s in sites),
        _arrowhead("red", RED),
        "</defs>",
        _text(24, 36, 18, title, INK, bold=True),
        _text(24, 60, 13, _told(order), INK),
    ]
    for n in shown:
        out += _column(n, column[n], bottom, n not in order)
    for i, s in enumerate(sites):
        out += _site(s, TOP + HEAD + i * LANE, column, tickets, order, cycles)
    out += [_text(24, bottom + 30 + 18 * i, 12, line, FAINT) for i, line in enumerate(LEGEND)]
    return "\n".join(out) + "\n</svg>\n"


def _told(order):
    if not order:
        return "Nothing is kept."
    return "Order: " + (" ".join(map(str, order)) if len(order) <= 12 else "the columns from left to right")


def _column(n, x, bottom, aborted):
    colour, dash = (RED, ' stroke-dasharray="5 4"') if aborted else (INK, "")
    yield (
        f'<rect x="{x - BOX // 2}" y="{TOP}" width="{BOX}" height="{bottom - TOP - 8}" rx="10" fill="#f3f6f8" '
        f'stroke="{colour}" stroke-width="1.4"{dash}/>'
    )
    yield _text(x, TOP + 25, 18 if n < 10_000 else 8, n, colour, bold=True, middle=True)
    if aborted:
        yield _text(x, TOP - 8, 12, "cycle, aborted", RED, middle=True)


def _site(s, y, column, tickets, order, cycles):
    """A site's line: its name, the arrows, and over them the rounds with the tickets."""
    colour = COLOURS[s % 8]
    yield _text(24, y + 5, 14, f"site {s}", colour, bold=True)
    here = sorted((tickets[n][s], n) for n in column if s in tickets[n])
    kept = [(k, n) for k, n in here if n in order]
    for (a, m), (b, n) in zip(kept, kept[1:]):
        yield (
            f'<line x1="{column[m] + _half(a)}" y1="{y}" x2="{column[n] - _half(b) - 1}" y2="{y}" stroke="{colour}" '
            f'stroke-width="2" marker-end="url(#s{s})"/>'
        )
    for c, then in cycles:
        own = tickets[c].get(s)
        before = [n for k, n in kept if own and n in then and k < own]
        behind = [n for k, n in kept if own and n in then and k > own]
        if before:
            yield _arc(column[before[-1]] + 12, column[c] - 12, y, -1, colour, f"s{s}")
        if behind:
            yield _arc(column[c] - 12, column[behind[0]] + 12, y, 1, RED, "red")
    for k, n in here:
        yield (
            f'<rect x="{column[n] - _half(k)}" y="{y - 14}" width="{2 * _half(k)}" height="28" rx="14" fill="#ffffff" '
            f'stroke="{colour}" stroke-width="2"/>'
        )
        yield _text(column[n], y + 4.5, 13 if k < 10_000 else 10 if k < 10_000_000 else 7.5, k, INK, middle=True)


def _half(ticket):
    """Half the width of the round that a ticket stands in."""
    return 17 if ticket < 10_000 else 27


def _arc(start, end, y, side, colour, marker):
    """An arrow beside a site's line: above it for side -1, below it for 1."""
    bend, far = 20 if start < end else -20, y + 30 * side
    return (
        f'<path d="M{start} {y + 12 * side} C{start + bend} {far} {end - bend} {far} {end} {y + 13 * side}" fill="none" '
        f'stroke="{colour}" stroke-width="2" marker-end="url(#{marker})"/>'
    )


def _arrowhead(name, colour):
    return (
        f'<marker id="{name}" viewBox="0 0 10 10" refX="10" refY="5" markerWidth="9" markerHeight="9" '
        f'markerUnits="userSpaceOnUse" orient="auto"><path d="M0 0 L10 5 L0 10 z" fill="{colour}"/></marker>'
    )


def _text(x, y, size, words, colour, bold=False, middle=False):
    """Only numbers and our own words are ever drawn, so nothing has to be escaped."""
    more = (' font-weight="bold"' if bold else "") + (' text-anchor="middle"' if middle else "")
    return f'<text x="{x}" y="{y}" font-size="{size}" fill="{colour}"{more}>{words}</text>'
