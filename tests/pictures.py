"""The pictures of the documents, docs/pictures/*.svg: made from the definitions, or from a text beside them. tests/documents.py compares
and writes them; tests/draw.py draws."""
import os
import re

from answers import moves, named, order, ranges, states
from draw import Drawing, Steps, from_text
from sources import Changed, found, functions_of, read, right_side

# ---- device states

# where each state stands
STATES = {"RESET": (330, 20), "RFOTM": (40, 170), "RFPRO": (340, 170), "RFNOP": (640, 170), "SRESET": (565, 290)}


def states_picture():
    """The states, with the moves that the definition has."""
    names = states()
    if set(names.values()) != set(STATES):
        raise Changed("the picture of the states has others than the header")
    drawing = Drawing("Device states and the moves between them", 790, 345)
    for name, (x, y) in STATES.items():
        drawing.box(name, x, y, 110, [name])
    fresh = names[found("Tables", "empty", r"state = (\d+);")]
    listed = [(names[a], names[b], condition) for a, b, condition in moves()] + [("RESET", fresh, "at once")]
    both = {(a, b) for a, b, _ in listed}
    for a, b, condition in listed:
        words = {"has_owner": "if owned is 1", "at once": "at once, fresh tables", "true": ""}[condition]
        drawing.arrow(
            a, b, words, aside=9 if (b, a) in both else 0, shift=(62, 16) if condition == "at once" else (0, -9)
        )
    x, y = STATES[fresh]
    drawing.path([(x + 55, y + 110), (x + 55, y + 36)])
    drawing.above.append(drawing.text(x + 65, y + 128, "fresh tables, the clear button", "h", size=12))
    return drawing.svg()


# ---- the order of the checks

# The crate that makes a group of checks, the definition of the group, and the one number of a group without a definition.
GROUPS = (
    ("check_waiting", None, 1),
    ("check_header", "header_checks", None),
    ("caller", None, 7),
    ("check_request", "request_checks", None),
    ("check_state", "state_checks", None),
    ("check_rows", "row_checks", None),
    ("reply", "capacity_checks", None),
)


def order_picture():
    """The groups of checks in their order, each with its crate."""
    words = {n: word for _, n, word, _ in named("Answer")}
    drawing, drawn, y = Drawing("The order of the checks", 900, 0), [], 20
    drawing.box("start", 240, y, 360, ["a record, the tables, what waits,", "the clock, the lent buffer"], "round")
    before, rows = "start", []
    for crate, group, single in GROUPS:
        numbers = [single] if group is None else [int(n) for n in re.findall(r"\((\d+), ", right_side("Groups", group))]
        drawn += numbers
        if not os.path.isdir(f"crates/{crate}"):
            raise Changed(f"there is no crate {crate}, which makes the checks {ranges(numbers)}")
        last = drawing.boxes[before]
        y = last.y + last.height + 36
        drawing.box(crate, 250, y, 340, [crate] + [f"{n} {words[n]}" for n in numbers], head=True)
        drawing.arrow(before, crate, "none applies" if before != "start" else "")
        before = crate
        rows.append(crate)
    if drawn != order():
        raise Changed("the groups of checks, joined, are not the list of checks")
    last = drawing.boxes[before]
    y = last.y + last.height + 36
    drawing.box("permitted", 260, y, 320, ["0 permitted:", "permission, payload, reply, effect"], "round")
    drawing.arrow(before, "permitted", "none applies")
    drawing.height = y + 72
    refused(drawing, rows)
    kept = drawing.boxes["caller"]
    drawing.box("kept", 10, kept.y - 12, 160, ["26, or kept with 0;", "the rest is checked", "at its take"], "round")
    drawing.arrow("caller", "kept", "at a / hand-in", dashed=True)
    return drawing.svg()


def refused(drawing, rows):
    """One tall box beside the groups, with an arrow from each."""
    first, last = drawing.boxes[rows[0]], drawing.boxes[rows[-1]]
    top, height = first.y, last.y + last.height - first.y
    drawing.lines.append(f'<rect x="740" y="{top:g}" width="150" height="{height:g}" rx="6"/>')
    said = ["refused", "with its number:", "tables as they were,", "nothing written"]
    for i, line in enumerate(said):
        drawing.lines.append(drawing.text(815, top + height / 2 - 20 + 18 * i, line))
    for crate in rows:
        box = drawing.boxes[crate]
        y = box.middle()[1]
        drawing.path([(box.x + box.width, y), (740, y)], "the first that applies", shift=(0, -9))


# ---- a hand-in and a take

PARTIES = {"S": "sender", "P": "weighing program", "L": "library", "M": "waiting records"}
SEQUENCE = (
    ("S->P", "a record", None),
    ("P->L", "tillerclover_hand_in: / terminal, record", "terminal::tillerclover_hand_in_at"),
    ("L->L", "check_terminal: 1", "check_waiting::check_terminal"),
    ("L->L", "check_record: {sender}", "caller::check_record"),
    ("L->L", "26 where a record of this seat waits", None),
    ("alt", "refused", None),
    ("L-->P", "the number, / and nothing has changed", None),
    ("P-->S", "refused", None),
    ("else", "kept", None),
    ("L->M", "enqueue: the record, / byte for byte", "queue::enqueue"),
    ("L-->P", "0, permission 0", None),
    ("end", "", None),
    ("note P", "the plate is free", None),
    ("P->L", "tillerclover_take: terminal, / default rows, clock, buffer", "terminal::tillerclover_take_at"),
    ("L->L", "check_take: 1, 27", "take::check_take"),
    ("L->M", "due_record: whose turn it is", "queue_turn::due_record"),
    ("L->L", "decide: {rest}", "decision::decide"),
    ("L->M", "dequeue: the place is emptied, / the round moves, / also where it is refused", "queue::dequeue"),
    ("alt", "refused", None),
    ("L-->P", "the number and the record, / the tables as they were", None),
    ("else", "permitted", None),
    ("L->M", "execute_queued: reply, / effect, what still waits", "execute::execute_queued"),
    ("L-->P", "0, permission, payload, / reply, places, links", None),
    ("P->P", "stores the tables where they changed, then acts", None),
    ("end", "", None),
    ("P-->S", "the answer", None),
)


def sequence_picture():
    """What goes to and fro at a hand-in and at a take; each function that is named must be there."""
    checks = order()
    sender, rest = ranges(checks[1 : checks.index(7) + 1]), ranges(checks[1:])
    steps = Steps("A hand-in and a take", PARTIES)
    for arrow, words, function in SEQUENCE:
        if function and function.split("::")[1] not in functions_of(f"crates/{function.split('::')[0]}/src"):
            raise Changed(f"there is no function {function}, which the sequence names")
        words = words.format(sender=sender, rest=rest)
        if arrow.startswith("note"):
            steps.add("note", words, arrow.split()[1])
        elif "->" in arrow:
            start, end = re.split(r"-+>", arrow)
            steps.add("message", words, start, end, reply="--" in arrow)
        else:
            steps.add(arrow, words)
    return steps.svg()


# ---- layers


def wrapped(words, longest):
    """Names between commas, in lines."""
    lines = [""]
    for word in words:
        joined = f"{lines[-1]}, {word}" if lines[-1] else word
        if len(joined) > longest:
            lines[-1] += ","
            joined = word
            lines.append("")
        lines[-1] = joined
    return lines


def layers_picture(rows, edges):
    """The layers from the top; arrows between neighbours are straight, all others go round on the right."""
    drawing, y = Drawing("The layers of the crates", 880, 0), 20
    for layer, names in rows:
        box = drawing.box(layer, 20, y, 700, [layer, *wrapped(names, 92)], head=True)
        y += box.height + 30
    drawing.height = y - 10
    order_of = [layer for layer, _ in rows]
    lanes = []
    for a, b in sorted(edges, key=lambda edge: edge[1] - edge[0]):
        if b == a + 1:
            drawing.arrow(order_of[a], order_of[b])
            continue
        lane = next((n for n, taken in enumerate(lanes) if all(b <= c or d <= a for c, d in taken)), len(lanes))
        if lane == len(lanes):
            lanes.append([])
        lanes[lane].append((a, b))
        start, end = drawing.boxes[order_of[a]], drawing.boxes[order_of[b]]
        x, top, low = 745 + 28 * lane, start.y + start.height * 0.7, end.y + end.height * 0.3
        drawing.path([(720, top), (x, top), (x, low), (720, low)])
    return drawing.svg()


# ---- pictures with a text of their own


def boundary_picture(functions):
    """The trust boundary, with the functions that C can call."""
    return from_text(
        "The trust boundary", read("docs/pictures/boundary.txt"), functions=" / ".join(wrapped(functions, 62))
    )


def way_picture(records):
    """From the paper to the processor, with the number of records that are compared."""
    return from_text("From the paper to the processor", read("docs/pictures/way.txt"), records=f"{records:,}")
