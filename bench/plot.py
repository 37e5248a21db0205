"""Draws the benchmark as SVG: instructions by case, the library beside C by hand; the library's time on a Cortex-M4, with the longest
calls that were found; and the growth with the rows held.

bench/page.py calls `draw`. Nothing but Python's own library is needed.
"""
import math

WIDTH = 960
LIBRARY, BY_HAND, INK, GRID = "#1f5fa8", "#d0702a", "#222222", "#dddddd"
ROW, TOP, LEFT, RIGHT = 20, 84, 190, 90
# the same colours on a dark page
DARK = (
    "@media(prefers-color-scheme:dark){"
    'rect[fill="#ffffff"]{fill:#0d1117}[fill="#222222"]{fill:#e6edf3}[stroke="#dddddd"]{stroke:#30363d}'
    '[fill="#1f5fa8"]{fill:#79b8ff}[stroke="#1f5fa8"]{stroke:#79b8ff}}'
)
GROWTH, GAP = 250, 70
# What the plot says of a case, where its name is not enough.
WORDS = {
    "cred": "RETRIEVE cred",
    "acl2": "RETRIEVE acl2",
    "store": "store an access row",
    "remove": "remove an access row",
    "text": "office text",
    "judge25": "serve, 25 wait",
    "hand-in0": "hand-in, none waits",
    "hand-in24": "hand-in, 24 wait",
    "take1": "take, 1 waits",
    "take25": "take, 25 wait",
    "test": "test of a list",
    "convert": "conversion",
    "assert": "assert a role",
}
LISTS = {"32-rows": "32 rows", "low-byte": "one low byte", "UUIDs": "UUIDs", "anybody": "anybody"}


def words(case, tables):
    name = WORDS.get(case, case)
    return name if tables == "full" else f"{name}, {LISTS[tables]}"


def text(x, y, said, anchor="start", size=12, colour=INK, more=""):
    return (
        f'<text x="{x:.1f}" y="{y:.1f}" text-anchor="{anchor}" font-size="{size}" fill="{colour}"{more}>{said}</text>'
    )


def line(x1, y1, x2, y2, colour, width=1, more=""):
    return f'<line x1="{x1:.1f}" y1="{y1:.1f}" x2="{x2:.1f}" y2="{y2:.1f}" stroke="{colour}" stroke-width="{width}"{more}/>'


def dot(x, y, colour):
    return f'<circle cx="{x:.1f}" cy="{y:.1f}" r="5" fill="{colour}"/>'


def square(x, y, colour):
    return f'<rect x="{x - 4.5:.1f}" y="{y - 4.5:.1f}" width="9" height="9" fill="{colour}"/>'


# ---- by case

LOWEST, HIGHEST = 500, 100_000


def across(number):
    """The place of a number on the logarithmic axis."""
    part = (math.log10(number) - math.log10(LOWEST)) / (math.log10(HIGHEST) - math.log10(LOWEST))
    return LEFT + part * (WIDTH - LEFT - RIGHT)


def legend(y):
    return [
        dot(LEFT + 6, y - 4, LIBRARY),
        text(LEFT + 16, y, "library"),
        square(LEFT + 86, y - 4, BY_HAND),
        text(LEFT + 96, y, "C by hand, in place"),
        text(WIDTH - RIGHT + 12, y, "ratio", size=12, more=' font-weight="bold"'),
    ]


def by_case(counted, cases):
    end = TOP + ROW * len(cases)
    drawn = [text(16, 28, "Instructions of one call, by case", size=17, more=' font-weight="bold"')]
    drawn += [
        text(
            16,
            46,
            "Tables are full (24 credential rows, 32 access rows); all of check 1 is included, but for lists. The axis is logarithmic.",
        )
    ]
    drawn += legend(TOP - 14)
    for tick in (500, 1_000, 2_000, 5_000, 10_000, 20_000, 50_000, 100_000):
        drawn += [
            line(across(tick), TOP, across(tick), end, GRID),
            text(across(tick), end + 16, f"{tick:,}", "middle", 11),
        ]
    for place, case in enumerate(cases):
        y = TOP + ROW * (place + 0.5)
        library, hand = counted[case]
        drawn += [text(LEFT - 10, y + 4, words(*case), "end"), line(across(hand), y, across(library), y, "#999999", 2)]
        drawn += [square(across(hand), y, BY_HAND), dot(across(library), y, LIBRARY)]
        drawn.append(text(WIDTH - RIGHT + 12, y + 4, f"{library / hand:.2f}"))
    drawn.append(text((LEFT + WIDTH - RIGHT) / 2, end + 34, "instructions", "middle"))
    return drawn, end + 50


# ---- time on a Cortex-M4

SHORTEST_US, LONGEST_US = 20, 10_000


def by_time(cortex, cases, longest, megahertz, top):
    """The library's cases, and for each function the longest call that was found."""
    rows = [(words(*case), cortex[case] / megahertz, False) for case in cases]
    rows += [
        (f"longest {function} found", many / megahertz, True)
        for (processor, function), (many, _) in longest.items()
        if processor == "Cortex-M4"
    ]
    end = top + 36 + ROW * len(rows)

    def place(time):
        part = (math.log10(time) - math.log10(SHORTEST_US)) / (math.log10(LONGEST_US) - math.log10(SHORTEST_US))
        return LEFT + max(0.0, part) * (WIDTH - LEFT - RIGHT)

    drawn = [
        text(16, top, f"Time of one call on a Cortex-M4 at {megahertz} MHz", size=17, more=' font-weight="bold"'),
        text(
            16,
            top + 18,
            "One instruction a cycle: memory that waits, and loads of two cycles, add to it. The axis is logarithmic.",
        ),
    ]
    for tick in (20, 50, 100, 200, 500, 1_000, 2_000, 5_000, 10_000):
        drawn += [
            line(place(tick), top + 36, place(tick), end, GRID),
            text(place(tick), end + 16, f"{tick:,}", "middle", 11),
        ]
    for number, (name, time, found) in enumerate(rows):
        y = top + 36 + ROW * (number + 0.5)
        drawn += [text(LEFT - 10, y + 4, name, "end"), (square if found else dot)(place(time), y, LIBRARY)]
        drawn.append(text(WIDTH - RIGHT + 12, y + 4, f"{time:,.0f} µs"))
    drawn.append(text((LEFT + WIDTH - RIGHT) / 2, end + 34, "microseconds", "middle"))
    return drawn, end + 50


# ---- growth with the rows


def grown(counted, cases, rows, frame, highest):
    """Lines of the cases in a frame: left, top, width."""
    left, top, width = frame
    held = sorted(rows.values())

    def at(many, number):
        return left + many / held[-1] * width, top + GROWTH - number / highest * GROWTH

    drawn = []
    for part in range(0, 5):
        number = highest * part // 4
        y = at(0, number)[1]
        drawn += [line(left, y, left + width, y, GRID), text(left - 8, y + 4, f"{number:,}", "end", 11)]
    for many in held:
        drawn.append(text(at(many, 0)[0], top + GROWTH + 16, str(many), "middle", 11))
    for case, dashes in cases:
        for side, colour, mark in ((1, BY_HAND, square), (0, LIBRARY, dot)):
            points = [at(rows[tables], counted[case, tables][side]) for tables in rows]
            path = " ".join(f"{x:.1f},{y:.1f}" for x, y in points)
            drawn.append(f'<polyline points="{path}" fill="none" stroke="{colour}" stroke-width="2"{dashes}/>')
            drawn += [mark(x, y, colour) for x, y in points]
    drawn.append(text(left + width / 2, top + GROWTH + 34, "rows held: credential and access rows", "middle"))
    return drawn


def growth(counted, rows, top):
    width = (WIDTH - 2 * GAP - 40) / 2
    dashed = ' stroke-dasharray="5 4"'
    drawn = [text(16, top, "Growth with the rows held", size=17, more=' font-weight="bold"')]
    drawn.append(text(GAP, top + 22, "serve (solid) and RETRIEVE acl2 (dashed), instructions"))
    drawn += grown(counted, [("acl2", dashed), ("serve", "")], rows, (GAP, top + 36, width), 8_000)
    drawn.append(text(2 * GAP + width, top + 22, "office text, instructions"))
    drawn += grown(counted, [("text", "")], rows, (2 * GAP + width, top + 36, width), 60_000)
    return drawn, top + 36 + GROWTH + 50


def draw(counted, cases, rows, cortex, longest, megahertz):
    """The picture; `rows` has the number of rows by the tables' name, `cortex` and `longest` what is known of the Cortex-M4."""
    first, below = by_case(counted, cases)
    if cortex:
        second, below = by_time(cortex, cases, longest, megahertz, below + 30)
        first += second
    second, height = growth(counted, rows, below + 30)
    head = f'<svg xmlns="http://www.w3.org/2000/svg" width="{WIDTH}" height="{height}" viewBox="0 0 {WIDTH} {height}" font-family="sans-serif">'
    title = "<title>Instructions of the library and of C by hand</title>"
    paper = f'<style>{DARK}</style>\n<rect width="{WIDTH}" height="{height}" fill="#ffffff"/>'
    return "\n".join([head, title, paper, *first, *second, "</svg>"]) + "\n"
