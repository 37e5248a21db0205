#!/usr/bin/env python3
"""Draws one record's way through the crates, docs/record.svg, from the calls in the sources.

    tests/way.py            compares the drawing with the sources; exit status 1: it is not today's
    tests/way.py --write    draws it

The crates stand in the order in which a record that is judged enters them first, each below the crate that calls it, with
the first sentence of its source.
"""
import glob
import re
import sys
from xml.sax.saxutils import escape

sys.dont_write_bytecode = True
from draw import STYLE  # noqa: E402
from sources import Changed, crates, imports, read  # noqa: E402

START = "tillerclover_judge_at"
# what all others read bytes with
LEFT_OUT = {"rules", "rows", "fields", "text"}
OUT = "docs/record.svg"
ROW, STEP, LEFT = 26, 22, 12


def bodies_of(text):
    """(function, body) of a source. A body begins with a brace at the end of a line, and ends with one below its function."""
    lines, at = text.split("\n"), 0
    while at < len(lines):
        head = re.match(r"( *)(?:pub )?(?:extern \"C\" )?fn (\w+)", lines[at])
        at += 1
        if not head:
            continue
        begin = at - 1
        while not re.fullmatch(rf"(?:{head.group(1)}|(?! *(?:requires|ensures)\b).* )\{{", lines[begin]):
            begin += 1
        end = begin + 1
        while lines[end] != head.group(1) + "}":
            end += 1
        yield head.group(2), "\n".join(line.split("//")[0] for line in lines[begin + 1 : end])
        at = end


def functions():
    """(crate, function) to the calls in its body, as (crate, function), in their order."""
    names, result, bodies = set(crates()), {}, []
    for crate in crates():
        for path in sorted(glob.glob(f"crates/{crate}/src/**/*.rt", recursive=True)):
            text = read(path)
            used = {}
            for parts in imports(text):
                used[parts[-1]] = parts[0] if parts[0] in names else crate
            for name, body in bodies_of(text):
                bodies.append(((crate, name), used, body))
                result[(crate, name)] = []
    for (crate, name), used, body in bodies:
        for qualifier, callee in re.findall(r"((?:\w+::)*)(\w+)\(", body):
            first = qualifier.split("::")[0]
            owner = used.get(first, first if first in names else crate) if first else used.get(callee, crate)
            if (owner, callee) in result:
                result[(crate, name)].append((owner, callee))
    return result


def exporting():
    """The crate that exports the function to C."""
    found = [
        crate
        for crate in crates()
        for path in glob.glob(f"crates/{crate}/src/**/*.rt", recursive=True)
        if re.search(rf'^pub extern "C" fn {START}\b', read(path), re.M)
    ]
    if len(found) != 1:
        raise Changed(f"{START} is exported by {' and '.join(found) or 'no crate'}")
    return found[0]


def way():
    """(depth, crate) in the order in which they are entered."""
    first = exporting()
    calls, seen, entered, order = functions(), set(), {first}, [(0, first)]

    def walk(function, depth):
        if function in seen:
            return
        seen.add(function)
        for callee in calls[function]:
            below = depth
            if callee[0] not in entered and callee[0] not in LEFT_OUT:
                below = depth + 1
                entered.add(callee[0])
                order.append((below, callee[0]))
            walk(callee, below)

    walk((first, START), 0)
    return order


def purpose(crate):
    first = read(f"crates/{crate}/src/lib.rt").split("\n")[0].removeprefix("//").strip()
    return first if len(first) <= 96 else first[:93].rsplit(" ", 1)[0] + " .."


def drawing():
    rows = way()
    height = ROW * len(rows) + 2 * LEFT
    out = [
        f'<svg xmlns="http://www.w3.org/2000/svg" viewBox="0 0 900 {height}" width="900" height="{height}" role="img" '
        'aria-label="One record\'s way through the crates" font-family="sans-serif" font-size="13">',
        f"<style>{STYLE}</style>",
    ]
    last = {}
    for i, (depth, crate) in enumerate(rows):
        x, y = LEFT + STEP * depth, LEFT + ROW * i
        if depth:
            top = LEFT + ROW * last[depth - 1] + 20
            out.append(f'<path d="M{x - 12} {top}V{y + 10}H{x}"/>')
        last[depth] = i
        width = 8 * len(crate) + 14
        out.append(
            f'<rect x="{x}" y="{y}" width="{width}" height="20" rx="4"/><text x="{x + 7}" y="{y + 14}">{escape(crate)}</text>'
        )
        out.append(f'<text class="p" x="{x + width + 8}" y="{y + 14}" font-size="12">{escape(purpose(crate))}</text>')
    return "\n".join(out + ["</svg>"]) + "\n"


def main():
    text = drawing()
    if sys.argv[1:] == ["--write"]:
        with open(OUT, "w", encoding="utf-8") as file:
            file.write(text)
        return 0
    try:
        same = read(OUT) == text
    except FileNotFoundError:
        same = False
    if not same:
        print(f"documents: {OUT} is not what the calls give; tests/way.py --write draws it")
    return 0 if same else 1


if __name__ == "__main__":
    sys.exit(main())
