#!/usr/bin/env python3
"""Writes the tables of docs/BENCHMARKS.md, and the plot docs/benchmarks.svg, from what the programs printed.

    bench/page.py FOLDER          FOLDER has counts.txt, same_compiler.txt, times.txt, cortex.txt, worst.txt, targets.txt, by_hand.txt,
                                  casbin.txt

bench/page.sh makes these files and calls this. A file that is missing leaves its table as it is.
"""
import os
import re
import sys

sys.dont_write_bytecode = True
from plot import draw  # noqa: E402

PAGE, PLOT = "docs/BENCHMARKS.md", "docs/benchmarks.svg"
# Credential and access rows held, by the name of the tables.
ROWS = {"few": 2, "1/8": 7, "2/8": 14, "3/8": 21, "half": 28, "5/8": 35, "6/8": 42, "7/8": 49, "full": 56}
ON_TABLES = [
    "serve",
    "foreman",
    "poll",
    "assert",
    "cred",
    "acl2",
    "store",
    "remove",
    "text",
    "refuse1",
    "refuse2",
    "refuse7",
    "refuse8",
]
FILLS = ["few", "half", "full"]
ALONE = [
    ("judge25", "full"),
    ("hand-in0", "full"),
    ("hand-in24", "full"),
    ("take1", "full"),
    ("take25", "full"),
    ("test", "32-rows"),
    ("test", "low-byte"),
    ("convert", "UUIDs"),
    ("convert", "anybody"),
]
GROWING = ["serve", "acl2", "text"]
# What was aimed at, by the ratio to C by hand: instructions, and time.
AIMS = [
    ("serve, at each fill", 1.15, 1.3, [("serve", fill) for fill in FILLS]),
    ("a hand-in, nothing waits and 24 wait", 1.15, 1.3, [("hand-in0", "full"), ("hand-in24", "full")]),
    ("a take, 1 and 25 wait", 1.15, 1.3, [("take1", "full"), ("take25", "full")]),
    ("store, full tables", 1.15, 1.3, [("store", "full")]),
    ("remove, full tables", 1.15, 1.3, [("remove", "full")]),
    ("RETRIEVE acl2, full tables", 1.15, 1.3, [("acl2", "full")]),
    ("RETRIEVE cred, full tables", 1.3, 1.5, [("cred", "full")]),
    ("poll, at each fill", 1.5, 1.7, [("poll", fill) for fill in FILLS]),
    ("office text, full tables", 1.8, 2.0, [("text", "full")]),
]
# of the Cortex-M4, for its times
MEGAHERTZ = 100


def table(head, rows):
    lines = ["| " + " | ".join(row) + " |" for row in [head, *rows]]
    return "\n".join([lines[0], "|" + "---|" * len(head), *lines[1:]])


def ratio(pair):
    return f"{pair[0] / pair[1]:.2f}"


# ---- what the programs printed


def pairs(text):
    """Library and by hand, by case and tables."""
    lines = re.findall(r"^(\S+) +(\S+) +(\d+) +(\d+) +[\d.]+$", text, re.M)
    return {(case, tables): (int(library), int(hand)) for case, tables, library, hand in lines}


def on_cortex(text):
    """The library's instructions on a Cortex-M4, by case and tables."""
    return {(case, tables): int(many) for case, tables, many in re.findall(r"^(\S+) (\S+) (\d+)$", text, re.M)}


def longest(text):
    """The most instructions that were found and the answer, by processor and function."""
    lines = re.findall(r"^longest (\S+) (\S+) (\d+) (\d+)$", text, re.M)
    return {(processor, function): (int(many), int(answer)) for processor, function, many, answer in lines}


STACK = r"stack: decision (\d+), hand-in (\d+), take (\d+), text (\d+), test (\d+), conversion (\d+) bytes"


def targets(text):
    """Stack and size by triple and level."""
    lines = re.findall(rf"^(\S+) +-(O\d) .*{STACK}; (\d+) bytes of code$", text, re.M)
    return {(triple, level): [int(number) for number in numbers] for triple, level, *numbers in lines}


# ---- the tables of the page


def case_row(name, pairs_by_fill, timed_by_fill, cortex):
    """Instructions and ratios by fill, time on full tables and its ratios, and the Cortex-M4 on full tables."""
    row = [name]
    row.append(", ".join(f"{pair[0]:,}" for pair in pairs_by_fill))
    row.append(", ".join(ratio(pair) for pair in pairs_by_fill))
    row.append(f"{timed_by_fill[-1][0]:,}")
    row.append(", ".join(ratio(pair) for pair in timed_by_fill))
    row += [f"{cortex:,}", f"{cortex / MEGAHERTZ:,.0f}"]
    return row


def all_cases(counted, timed, cortex):
    head = ["case", "instructions", "ratio", "ns", "ratio", "Cortex-M4: instructions", f"µs at {MEGAHERTZ} MHz"]
    rows = []
    for case in ON_TABLES:
        keys = [(case, fill) for fill in FILLS]
        rows.append(case_row(case, [counted[k] for k in keys], [timed[k] for k in keys], cortex[keys[-1]]))
    for key in ALONE:
        name = key[0] if key[1] == "full" else " ".join(key)
        rows.append(case_row(name, [counted[key]], [timed[key]], cortex[key]))
    return table(head, rows)


def longest_calls(found):
    head = ["function", "x86-64: instructions", "answer", "Cortex-M4: instructions", "answer", f"ms at {MEGAHERTZ} MHz"]
    rows = []
    for processor, function in found:
        if processor == "x86-64":
            here, there = found[processor, function], found["Cortex-M4", function]
            name = f"`tillerclover_{function}`"
            rows.append(
                [name, f"{here[0]:,}", str(here[1]), f"{there[0]:,}", str(there[1])]
                + [f"{there[0] / MEGAHERTZ / 1000:.2f}"]
            )
    return table(head, rows)


def growth(counted):
    head = ["rows held"] + [f"{case}: {side}" for case in GROWING for side in ("library", "by hand")]
    rows = [
        [str(held)] + [f"{number:,}" for case in GROWING for number in counted[case, tables]]
        for tables, held in ROWS.items()
    ]
    first, last = ("few", "full")
    more = [
        f"{(counted[case, last][side] - counted[case, first][side]) / (ROWS[last] - ROWS[first]):.0f}"
        for case in GROWING
        for side in (0, 1)
    ]
    return table(head, rows + [["for each row more"] + more])


def aims(counted, same, timed):
    """Instructions beside C by hand of the usual compiler and of the library's own, and time beside the usual one's."""
    rows = []
    for what, most, longest, cases in AIMS:
        row = [what]
        for measured, limit in ((counted, most), (same, most), (timed, longest)):
            worst = max(measured[case][0] / measured[case][1] for case in cases)
            row += [f"{limit:.2f}", ", ".join(ratio(measured[case]) for case in cases), verdict(worst, limit)]
        rows.append(row)
    head = [
        "what",
        "instructions, at most",
        "C by hand by gcc",
        "",
        "at most",
        "by the kit's clang",
        "",
        "time, at most",
        "by gcc",
        "",
    ]
    return table(head, rows)


def verdict(worst, most):
    return "reached" if worst <= most else f"missed, {100 * (worst / most - 1):.0f} % over"


def by_target(sizes):
    head = ["target", "level", "code", "decision", "hand-in", "take", "office text", "test of a list", "conversion"]
    rows = [
        [triple, f"-{level}", f"{code:,}"] + [f"{number:,}" for number in stack]
        for (triple, level), (*stack, code) in sizes.items()
    ]
    return table(head, rows)


def hand(text):
    rows = []
    for name, numbers in zip(("by hand, gcc -O3", "library, -O3"), re.findall(STACK + r"\nsize: (\d+)", text)):
        *stack, code = (int(number) for number in numbers)
        rows.append([name, f"{code:,}"] + [f"{number:,}" for number in stack])
    return table(
        ["on x86-64", "code", "decision", "hand-in", "take", "office text", "test of a list", "conversion"], rows
    )


def engine(text, timed):
    """Of the library and by hand: a decision, and what it takes beyond check 1."""
    plain, whole = (int(number) for number in re.search(r"compared (\d+) ns, whole rows (\d+) ns", text).groups())
    serve, sound = timed["serve", "full"], timed["refuse2", "full"]
    rows = [
        ["casbin, three strings of a row compared", f"{plain:,}"] + [""] * 2,
        ["casbin, whole rows", f"{whole:,}"] + [""] * 2,
    ]
    for side, name in enumerate(("library", "by hand")):
        for what, time in (
            ("all of the decision, check 1 of 8,676 bytes included", serve[side]),
            ("the decision without check 1", serve[side] - sound[side]),
        ):
            rows.append([f"{name}, {what}", f"{time:,}", f"{plain / time:.0f}", f"{whole / time:.0f}"])
    versions = re.search(r"versions: (.*)", text).group(1)
    return table(
        [f"32 access rows, {versions}", "ns", "casbin takes so many times as long: strings", "whole rows"], rows
    )


def compared(text):
    records, texts, lists, older = (
        int(number)
        for number in re.search(
            r"^library and by hand: (\d+) .*\n(\d+) texts, (\d+) lists to load, (\d+) older", text, re.M
        ).groups()
    )
    differences = re.search(r"^agree: (\d+) differences", text, re.M).group(1)
    return (
        f"Compared: {records:,} records, hand-ins and takes, {texts:,} office texts, {lists:,} lists to load and {older:,} older lists. "
        f"Differences: {differences}."
    )


# ---- the page


def blocks(files):
    """The tables that can be made of the files that are there."""
    made = {}
    counted = pairs(files.get("counts", ""))
    timed = pairs(files.get("times", ""))
    sizes = targets(files.get("targets", ""))
    if counted:
        made["growth"] = growth(counted)
    same = pairs(files.get("same_compiler", ""))
    if counted and same and timed:
        made["aims"] = aims(counted, same, timed)
    if timed:
        made["compared"] = compared(files["times"])
        made["mixed"] = "\n".join(
            f"{int(tables.split('-')[0]):,} records drawn at random, all different, so that no branch always goes the same way: "
            f"library {library} ns, by hand {by_hand} ns, ratio {library / by_hand:.2f}."
            for (case, tables), (library, by_hand) in timed.items()
            if case == "mixed"
        )
    if counted and timed and "cortex" in files:
        made["cases"] = all_cases(counted, timed, on_cortex(files["cortex"]))
    if "worst" in files:
        made["longest"] = longest_calls(longest(files["worst"]))
    if sizes:
        made["targets"] = by_target(sizes)
    if "by_hand" in files:
        made["hand"] = hand(files["by_hand"])
    if timed and "casbin" in files:
        made["engine"] = engine(files["casbin"], timed)
    return made


def renewed(page, made):
    def block(match):
        name = match.group(1)
        return f"<!-- {name}, by bench/page.py -->\n\n{made[name]}\n\n<!-- end -->" if name in made else match.group(0)

    return re.sub(r"<!-- (\w+), by bench/page\.py -->\n(.*?)<!-- end -->", block, page, flags=re.S)


def read(path):
    with open(path, encoding="utf-8") as file:
        return file.read()


def main(words):
    if len(words) != 1:
        print(__doc__.strip(), file=sys.stderr)
        return 2
    names = ("counts", "same_compiler", "times", "cortex", "worst", "targets", "by_hand", "casbin")
    paths = {name: f"{words[0]}/{name}.txt" for name in names}
    files = {name: read(path) for name, path in paths.items() if os.path.exists(path)}
    made = blocks(files)
    text = renewed(read(PAGE), made)
    with open(PAGE, "w", encoding="utf-8") as file:
        file.write(text)
    if "counts" in files:
        counted = pairs(files["counts"])
        cases = [(case, "full") for case in ON_TABLES if case != "refuse1"] + ALONE
        with open(PLOT, "w", encoding="utf-8") as file:
            file.write(
                draw(
                    counted, cases, ROWS, on_cortex(files.get("cortex", "")), longest(files.get("worst", "")), MEGAHERTZ
                )
            )
    left = sorted(set(re.findall(r"<!-- (\w+), by bench/page\.py -->", text)) - set(made))
    print("page.py: written" + (f"; as it was: {', '.join(left)}" if left else ""))
    return 0


if __name__ == "__main__":
    sys.exit(main(sys.argv[1:]))
