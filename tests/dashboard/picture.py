"""docs/dashboard.svg: panels of the dashboard over a day, as a Prometheus answers their queries."""
from html import escape

import boards
from day import BEGIN, DAY

FILE = f"{boards.TOP}/docs/dashboard.svg"
# The panels that are drawn, by their titles, a row of the picture at a time.
SHOWN = (
    ("Recipients a second, by answer", "550 and 451 a minute", "Requests a second, by result"),
    ("Time of a commit", "Connections", "Time of an exchange"),
    ("Files", "Memory", "Exchanges a second"),
)
WIDTH, HEIGHT, LEFT, TOP, RIGHT, BOTTOM, GAP = 300, 180, 44, 26, 8, 56, 10
# one point of a line for so many seconds
STEP = 300
# about how wide a letter is
LETTER = 5.3
COLORS = ("#2f6fb5", "#d9822b", "#3d8f4f", "#b5403a", "#7a5aa8", "#8a6d3b", "#c26aa0", "#666666")
UNITS = {"bytes": ((2**20, " MiB"), (2**10, " KiB")), "s": ((1, " s"), (0.001, " ms"))}


def shown(value, unit):
    """A figure at an axis."""
    for size, name in UNITS.get(unit, ((1_000, " K"),)):
        if value >= size:
            return f"{value / size:.3g}{name}"
    return f"{value:.3g}"


def nice(value, unit):
    """The next round number at or above a value."""
    if value <= 0:
        return 1.0
    base, steps = (2, (1, 2)) if unit == "bytes" else (10, (1, 1.5, 2, 3, 4, 5, 6, 8, 10))
    power = 1.0
    while power * base <= value:
        power *= base
    while power > value:
        power /= base
    return next(it * power for it in steps if it * power >= value)


def lines_of(database, panel):
    """The lines of a panel that aren't 0 all the time: their names, and their points."""
    found = []
    for query in boards.queries():
        if query.panel != panel["title"]:
            continue
        for labels, values in database.range(query.text, BEGIN, BEGIN + DAY, STEP):
            name = query.legend
            for label, value in labels.items():
                name = name.replace(f"{{{{{label}}}}}", value)
            points = {at: it for at, it in values.items() if it == it}
            if any(points.values()):
                found.append((name, points))
    return found


def drawn(panel, lines):
    """A panel at its own corner."""
    unit = panel["fieldConfig"]["defaults"]["unit"]
    wide, high = WIDTH - LEFT - RIGHT, HEIGHT - TOP - BOTTOM
    most = nice(max((it for _, points in lines for it in points.values()), default=1), unit)
    parts = [
        f'<rect width="{WIDTH}" height="{HEIGHT}" rx="3" fill="white" stroke="#cccccc"/>',
        f'<text x="8" y="16" font-weight="bold">{escape(panel["title"])}</text>',
    ]
    for part in (0, 0.5, 1):
        y = TOP + high * (1 - part)
        parts.append(f'<path d="M{LEFT} {y:.0f}h{wide}" stroke="#dddddd"/>')
        parts.append(
            f'<text x="{LEFT - 4}" y="{y + 3:.0f}" text-anchor="end">'
            f"{shown(most * part, unit)}</text>"
        )
    for hour in range(0, 25, 6):
        x = LEFT + wide * hour / 24
        parts.append(
            f'<text x="{x:.0f}" y="{TOP + high + 12}" text-anchor="middle">{hour:02}</text>'
        )
    for (_, points), color in zip(lines, COLORS):
        places = {
            at: (round(LEFT + wide * (at - BEGIN) / DAY, 1), round(TOP + high * (1 - it / most), 1))
            for at, it in points.items()
        }
        parts.append(f'<path d="{path_of(places)}" fill="none" stroke="{color}"/>')
    x, y = 8, TOP + high + 26
    for (name, _), color in zip(lines, COLORS):
        long = 20 + LETTER * len(name)
        if x > 8 and x + long > WIDTH:
            x, y = 8, y + 12
        parts.append(f'<path d="M{x:.0f} {y - 3}h8" stroke="{color}" stroke-width="2"/>')
        parts.append(f'<text x="{x + 11:.0f}" y="{y}">{escape(name)}</text>')
        x += long
    return "".join(parts)


def path_of(places):
    """A line through places by their moments, without those on a level piece."""
    path = []
    for at in sorted(places):
        before, after = places.get(at - STEP), places.get(at + STEP)
        x, y = places[at]
        if before is None:
            path.append(f"M{x:g} {y:g}")
        elif after is None or not before[1] == y == after[1]:
            path.append(f"L{x:g} {y:g}")
    return "".join(path)


def draw(database):
    """Draws the picture anew."""
    panels = {it["title"]: it for it in boards.panels()}
    columns, rows = len(SHOWN[0]), len(SHOWN)
    wide = columns * (WIDTH + GAP) + GAP
    high = rows * (HEIGHT + GAP) + GAP
    parts = [
        f'<svg xmlns="http://www.w3.org/2000/svg" width="{wide}" height="{high}"'
        ' font-family="sans-serif" font-size="9">',
        f'<rect width="{wide}" height="{high}" fill="#f4f5f5"/>',
    ]
    for row, titles in enumerate(SHOWN):
        for column, title in enumerate(titles):
            corner = f"{GAP + column * (WIDTH + GAP)} {GAP + row * (HEIGHT + GAP)}"
            lines = lines_of(database, panels[title])
            parts.append(f'<g transform="translate({corner})">{drawn(panels[title], lines)}</g>')
    with open(FILE, "w", encoding="utf-8") as file:
        file.write("\n".join([*parts, "</svg>", ""]))
