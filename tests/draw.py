"""Draws boxes and arrows as SVG, light and dark, for the pictures of the documents: tests/documents.py compares and writes them.

A picture is made by calls, or read from a short text of docs/pictures:

    size WIDTH HEIGHT
    frame X Y WIDTH HEIGHT: title
    box NAME X Y WIDTH [believed|proved|round]: line / line
    arrow FROM TO [dashed] [both] [via X,Y X,Y] [at PART]: words

An arrow goes straight from edge to edge, or through the points given. Its words stand at the middle of its longest piece, or at the
part of it that `at` says.
"""
import math
import re
from xml.sax.saxutils import escape

LINE, PAD = 16, 10
STYLE = (
    "text{fill:#1b1f24}.p{fill:#57606a}.h{paint-order:stroke;stroke:#fff;stroke-width:4px;stroke-linejoin:round}"
    "rect{fill:#eef2f7;stroke:#8c959f}.f{fill:none}.k{fill:#dbe9fb;stroke:#0550ae}path{fill:none;stroke:#57606a}"
    ".a{fill:#57606a;stroke:none}"
    "@media(prefers-color-scheme:dark){text{fill:#e6edf3}.p{fill:#9198a1}.h{stroke:#0d1117}"
    "rect{fill:#21262d;stroke:#656c76}.f{fill:none}.k{fill:#14304f;stroke:#79b8ff}path{stroke:#9198a1}.a{fill:#9198a1;stroke:none}}"
)


class Box:
    def __init__(self, x, y, width, height):
        self.x, self.y, self.width, self.height = x, y, width, height

    def middle(self):
        return self.x + self.width / 2, self.y + self.height / 2

    def edge(self, towards, from_=None):
        """Where a line from a point of the box, its middle if none is given, to a point outside leaves it."""
        (cx, cy), (tx, ty) = from_ or self.middle(), towards
        dx, dy = tx - cx, ty - cy
        parts = []
        if dx:
            parts.append(((self.x + self.width if dx > 0 else self.x) - cx) / dx)
        if dy:
            parts.append(((self.y + self.height if dy > 0 else self.y) - cy) / dy)
        part = min((p for p in parts if p >= 0), default=0)
        return cx + dx * part, cy + dy * part


def longest(points):
    """The two ends of the longest piece of a line."""
    return max(zip(points, points[1:]), key=lambda piece: math.dist(*piece))


class Drawing:
    def __init__(self, title, width, height):
        self.title, self.width, self.height = title, width, height
        self.boxes, self.below, self.lines, self.above = {}, [], [], []

    def text(self, x, y, words, kind="", anchor="middle", size=13, more=""):
        mark = f' class="{kind}"' if kind else ""
        return f'<text{mark} x="{x:g}" y="{y:g}" text-anchor="{anchor}" font-size="{size}"{more}>{escape(words)}</text>'

    def frame(self, x, y, width, height, title):
        self.below.append(
            f'<rect class="f" x="{x:g}" y="{y:g}" width="{width:g}" height="{height:g}" rx="6" stroke-dasharray="5 4"/>'
        )
        self.below.append(self.text(x + 10, y + 18, title, "p", "start"))

    def box(self, name, x, y, width, lines, kind="", head=False):
        """A box with its lines in the middle; with `head` the first of them is the heading of those after it."""
        height = LINE * len(lines) + 2 * PAD - 2
        self.boxes[name] = Box(x, y, width, height)
        mark = ' class="k"' if kind == "proved" else ""
        shape = (
            f'x="{x:g}" y="{y:g}" width="{width:g}" height="{height:g}" rx="{height / 2 if kind == "round" else 4:g}"'
        )
        self.lines.append(f"<rect{mark} {shape}/>")
        if kind == "believed":
            self.lines.append(
                f'<rect class="f" x="{x + 3:g}" y="{y + 3:g}" width="{width - 6:g}" height="{height - 6:g}" rx="2"/>'
            )
        for i, words in enumerate(lines):
            at, style = y + PAD + 12 + LINE * i, ' font-weight="bold"' if head and i == 0 else ""
            self.lines.append(self.text(x + width / 2, at, words, more=style))
        return self.boxes[name]

    def head(self, end, before):
        """The head of an arrow that comes from `before`."""
        angle = math.atan2(end[1] - before[1], end[0] - before[0])
        side = [(end[0] - 9 * math.cos(angle + turn), end[1] - 9 * math.sin(angle + turn)) for turn in (0.42, -0.42)]
        points = " ".join(f"{px:.1f},{py:.1f}" for px, py in [end, *side])
        self.lines.append(f'<polygon class="a" points="{points}"/>')

    def path(self, points, words="", dashed=False, both=False, at=None, shift=(0, 0)):
        """A line through points, with its head at the last, or at both ends, and its words."""
        drawn = "M" + "L".join(f"{px:.1f} {py:.1f}" for px, py in points)
        self.below.append(f'<path d="{drawn}"' + (' stroke-dasharray="5 4"' if dashed else "") + "/>")
        self.head(points[-1], points[-2])
        if both:
            self.head(points[0], points[1])
        if words:
            (ax, ay), (bx, by) = longest(points)
            part = 0.5 if at is None else at
            px, py = ax + (bx - ax) * part + shift[0], ay + (by - ay) * part + 4 + shift[1]
            lines = words.split(" / ")
            for i, line in enumerate(lines):
                place = py + LINE * (i - (len(lines) - 1) / 2)
                self.above.append(self.text(px, place, line, "h", size=12))

    def arrow(self, start, end, words="", via=(), aside=0, **more):
        """From a box to another; `aside` moves the line to its left, so that two of opposite directions do not meet."""
        a, b = self.boxes[start], self.boxes[end]
        (ax, ay), (bx, by) = a.middle(), b.middle()
        if aside and not via:
            long = math.dist((ax, ay), (bx, by))
            dx, dy = aside * (by - ay) / long, -aside * (bx - ax) / long
            ax, ay, bx, by = ax + dx, ay + dy, bx + dx, by + dy
        inner = [tuple(point) for point in via]
        first, last = (inner[0], inner[-1]) if inner else ((bx, by), (ax, ay))
        self.path([self.aimed(a, first, (ax, ay)), *inner, self.aimed(b, last, (bx, by))], words, **more)

    @staticmethod
    def aimed(box, point, middle):
        """Where a line between a box and a point touches it: straight, where the point is beside or below the box."""
        if box.x < point[0] < box.x + box.width:
            middle = (point[0], middle[1])
        elif box.y < point[1] < box.y + box.height:
            middle = (middle[0], point[1])
        return box.edge(point, middle)

    def svg(self):
        head = (
            f'<svg xmlns="http://www.w3.org/2000/svg" viewBox="0 0 {self.width:g} {self.height:g}" width="{self.width:g}" '
            f'height="{self.height:g}" role="img" aria-label="{escape(self.title)}" font-family="sans-serif">'
        )
        return "\n".join([head, f"<style>{STYLE}</style>", *self.below, *self.lines, *self.above, "</svg>"]) + "\n"


# ---- pictures from a text


def from_text(title, text, **values):
    """The picture of a text of docs/pictures; {name} stands for the value."""
    drawing = None
    for line in text.split("\n"):
        if not line.strip() or line.startswith("#"):
            continue
        command, _, words = line.partition(":")
        words = words.strip()
        for name, value in values.items():
            words = words.replace("{" + name + "}", value)
        kind, *rest = command.split()
        if kind == "size":
            drawing = Drawing(title, *map(int, rest))
        elif kind == "frame":
            drawing.frame(*map(int, rest), words)
        elif kind == "box":
            name, x, y, width, *how = rest
            drawing.box(name, int(x), int(y), int(width), words.split(" / "), *how)
        else:
            via = [tuple(map(int, point)) for point in re.findall(r"(\d+),(\d+)", command)]
            part = re.search(r" at ([\d.]+)", command)
            drawing.arrow(
                rest[0],
                rest[1],
                words,
                via,
                dashed="dashed" in rest,
                both="both" in rest,
                at=float(part.group(1)) if part else None,
            )
    return drawing.svg()


# ---- steps between parties, one below the other


class Steps:
    """Lifelines of parties, and what goes from one to another. `blocks` are frames around steps that depend on a condition."""

    def __init__(self, title, parties, apart=210):
        self.title, self.parties, self.apart = title, parties, apart
        self.steps = []

    def add(self, kind, words, start=None, end=None, reply=False):
        self.steps.append((kind, words, start, end, reply))

    def place(self, party):
        return 70 + self.apart * list(self.parties).index(party)

    def svg(self):
        width = 140 + self.apart * (len(self.parties) - 1) + 60
        heights = {"message": 40, "alt": 30, "else": 30, "end": 14, "note": 44}

        def high(kind, words):
            return heights[kind] + 14 * words.count(" / ")

        height = 70 + sum(high(kind, words) for kind, words, *_ in self.steps) + 20
        drawing = Drawing(self.title, width, height)
        for party, words in self.parties.items():
            x = self.place(party)
            drawing.below.append(f'<path d="M{x} 44V{height - 10}" stroke-dasharray="2 4"/>')
            drawing.box(party, x - 68, 10, 136, [words])
        y, opened = 66, None
        for kind, words, start, end, reply in self.steps:
            if kind == "message":
                self.message(drawing, y, words, start, end, reply)
            elif kind == "note":
                drawing.box(f"note {y}", self.place(start) - 68, y - 6, 136, [words], "round")
            elif kind == "end":
                drawing.below.append(
                    f'<rect class="f" x="4" y="{opened}" width="{width - 8}" height="{y - opened}" rx="6" stroke-dasharray="5 4"/>'
                )
            else:
                opened = y if kind == "alt" else opened
                if kind == "else":
                    drawing.below.append(f'<path d="M4 {y}H{width - 4}" stroke-dasharray="5 4"/>')
                drawing.above.append(drawing.text(12, y + 17, words, "p h", "start"))
            y += high(kind, words)
        return drawing.svg()

    def message(self, drawing, y, words, start, end, reply):
        a, b = self.place(start), self.place(end)
        if a == b:
            drawing.path([(a, y + 8), (a + 26, y + 8), (a + 26, y + 24), (a + 2, y + 24)], dashed=reply)
            drawing.above.append(drawing.text(a + 34, y + 20, words, "h", "start", 12))
        else:
            lines = words.split(" / ")
            below = y + 10 + 14 * len(lines)
            drawing.path([(a, below), (b, below)], dashed=reply)
            for i, line in enumerate(lines):
                drawing.above.append(drawing.text((a + b) / 2, y + 18 + 14 * i, line, "h", "middle", 12))
