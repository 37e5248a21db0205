"""Device states, answers, checks and the directory, as tables: made from the definitions, the header and names.rs."""
import os
import re

from sources import HEADER, NAMES, SPECS, Changed, enum, fault, found, functions_of, read, right_side, rows_of

ANSWERS = "docs/ANSWERS.md"


# ---- device states


def states():
    return {int(value): name for name, value in re.findall(r"TILLERCLOVER_(\w+) = (\d+)", enum("tillerclover_state"))}


def moves():
    """(state, target, condition) by the definition; the condition is 'true' or 'has_owner'."""
    text = re.sub(
        r"\b(reset|rfotm|rfpro|rfnop|sreset)\b",
        lambda name: right_side("States", name.group()),
        right_side("States", "moves"),
    )
    listed = []
    for state, targets in re.findall(r"\((\d+), ((?:\(\d+, \w+\) ∷ )+)\[\]\)", text):
        listed += [
            (int(state), int(target), condition) for target, condition in re.findall(r"\((\d+), (\w+)\)", targets)
        ]
    if not listed or {c for _, _, c in listed} - {"true", "has_owner"}:
        raise Changed("States.antt: moves has another form")
    return listed


# What the table of writes says of the actions that are no plain column, with the definition that it rests on.
ALLOWED = {
    "state_allows state Serve": "eqb state rfnop",
    "state_allows state Read": "true",
    "state_allows state (SetRowOwner n)": "write_allowed state row_owner_write",
    "state_allows state (SetOwner owned)": "write_allowed state doxm_write && (not (eqb state sreset) || eqb owned 1)",
    "state_allows state (SetState target)": "write_allowed state target_write",
    "state_allows state (Store table)": "write_allowed state row_write",
    "state_allows state (Remove table key)": "write_allowed state row_write",
    "state_allows state (Assert connection)": "eqb state rfnop && eqb connection 1",
}


def writes_table():
    for left, text in ALLOWED.items():
        if SPECS["States"].get(left) != text:
            raise Changed(
                f"States.antt: '{left}' is '{SPECS['States'].get(left)}', and the table of writes rests on '{text}'"
            )
    names = states()
    rows = [
        re.findall(r"true|false", row)
        for row in re.findall(r"\(((?:(?:true|false) ∷ )+)\[\]\)", right_side("States", "writes"))
    ]
    if len(rows) != len(names) or "true" in rows[0]:
        raise Changed("States.antt: writes has another form")
    yes = {"true": "yes", "false": "no"}
    text = [
        "| state | doxm, 17 bytes | row owners | cred and acl2 rows | target state | an asserted role | applications |",
        "|---|---|---|---|---|---|---|",
    ]
    for state in range(1, len(rows)):
        cells = [yes[cell] for cell in rows[state]]
        if state == 4 and cells[0] == "yes":
            cells[0] = "owned must be 1"
        cells += ["over connection 1" if state == 3 else "no", "yes" if state == 3 else "no"]
        text.append(f"| {state} {names[state]} | " + " | ".join(cells) + " |")
    return "\n".join(text)


def states_table():
    text = ["| state | name | |", "|---|---|---|"]
    return "\n".join(text + [f"| {number} | {word} | {meaning} |" for _, number, word, meaning in named("State")])


# ---- answers, checks, the directory


def named(kind):
    """(constant, number, word, meaning) of a kind of names.rs."""
    block = re.search(rf"^    {kind} \{{\n(.*?)^    \}}\n\}}", read(NAMES), re.S | re.M)
    listed = re.findall(r"/// ([^\n]*)\n\s+(\w+) = (\d+), \"([^\"]*)\";", block.group(1)) if block else []
    if not listed:
        raise Changed(f"{NAMES} has no {kind}")
    return [(constant, int(value), word, meaning) for meaning, constant, value, word in listed]


def header_answers():
    """name: (number, comment) of the header's answers; constants in a comment as their numbers."""
    whole = read(HEADER)

    def plain(match):
        value = re.search(rf"\bTILLERCLOVER_{match.group(1)} = (\d+)", whole)
        return value.group(1) if value else match.group(0)

    found = {}
    pattern = r"(?:/\*((?:(?!\*/).)*)\*/\s*)?TILLERCLOVER_(\w+) = (\d+)"
    for comment, name, value in re.findall(pattern, enum("tillerclover_answer"), re.S):
        words = re.sub(r"\s*\n\s*\*\s*", " ", comment).strip()
        words = (
            re.sub(r"\bTILLERCLOVER_(\w+)", plain, words)
            .replace("AUTH_CRYPT", "auth-crypt")
            .replace("ANON_CLEAR", "anon-clear")
        )
        found[name] = (int(value), words)
    return found


def order():
    """The numbers of the checks in their order, as the definition and names.rs have them."""
    listed = [int(n) for n in re.findall(r"\((\d+), ", right_side("Checks", "checks"))]
    numbers = {name: n for name, n, _, _ in named("Answer")}
    block = re.search(r"CHECKS: \[Answer; \d+\] = \[(.*?)\];", read(NAMES), re.S)
    if [numbers[name] for name in re.findall(r"Answer::(\w+)", block.group(1))] != listed:
        fault(f"{NAMES}: CHECKS stand in another order than the definition's")
    return listed


def ranges(numbers):
    """Numbers in their order in words: 1 to 7, 16, 8 to 14."""
    parts = []
    for n in numbers:
        if parts and n == parts[-1][1] + 1:
            parts[-1][1] = n
        else:
            parts.append([n, n])
    return ", ".join(str(a) if a == b else f"{a} and {b}" if b == a + 1 else f"{a} to {b}" for a, b in parts)


def written_by_hand(page, name):
    """The last two cells of each row of a table that the page has, by the first cell."""
    block = re.search(rf"<!-- {name}, by tests/documents\.py -->\n(.*?)<!-- end -->", page, re.S)
    return {cells[0]: cells[-2:] for cells in rows_of(block.group(1) if block else "")}


def answers_table(page):
    by_hand, header = written_by_hand(page, "answers"), header_answers()
    text = ["| no. | words | what it means | usual cause | what to do |", "|---|---|---|---|---|"]
    for name, value, word, meaning in named("Answer"):
        if header.get(name, (None,))[0] != value:
            fault(f"{HEADER}: {NAMES} has the answer {name}, {value}")
        comment = header.get(name, (0, ""))[1]
        meaning = comment[0].upper() + comment[1:] + "." if comment else meaning
        cause, remedy = by_hand.get(str(value), ("", ""))
        if not cause or not remedy:
            fault(f"{ANSWERS}: answer {value} has no usual cause, or nothing to do")
        text.append(f"| {value} | {word} | {meaning} | {cause} | {remedy} |")
    return "\n".join(text)


def calls_table():
    """The answers of each call, in their order. The list of checks is the definition's; 26 and 27 are looked up there too."""
    checks = order()
    for left, last in (("hand_in_checks", 26), ("take_checks", 27)):
        if f"({last}, " not in right_side("Waiting", left):
            raise Changed(f"Terminal.antt: {left} has no {last}")
    sender = ranges(checks[: checks.index(7) + 1])
    return "\n".join(
        [
            "| call | answers, the first that applies |",
            "|---|---|",
            f"| `tillerclover_judge` | {ranges(checks)}; else 0 |",
            f"| `tillerclover_hand_in` | {sender}, 26; else 0, which says that the record is kept, and no more |",
            f"| `tillerclover_take` | 1, 27; then those of the record that is taken: {ranges(checks[1:])}; else 0 |",
            "| `tillerclover_access_list` | 17, 18; else 0 |",
            "| `tillerclover_test_list` | 19; then row by row 20, 21; else 0 |",
            "| `tillerclover_convert_list` | 23, 24, 25; else 0 |",
            "| `tillerclover_fresh`, `_clear` | none: they make a new terminal |",
            "| `tillerclover_is_sound` | none: false exactly where the others give 1 or 17 |",
        ]
    )


OFFERED = (
    "lookup verb ((retrieve, true) ∷ (update, true) ∷ (delete, eqb n cred || eqb n acl2) ∷ (observe, true) ∷ []) false"
)


def directory_table():
    if right_side("Checks", "offered") != OFFERED:
        raise Changed("Checks.antt: offered has another form")
    entries = [entry.strip() for entry in right_side("Directory", "directory").split("∷")[:-1]]
    links = {int(n) for n in re.findall(r"\d+", right_side("Directory", "links"))}
    paths = {n: path for _, n, path, _ in named("Resource")}
    if {n for n, entry in enumerate(entries) if entry != "unknown"} != set(paths):
        fault(f"{NAMES}: its resources are not those of the directory")
    yes = {True: "yes", False: "no"}
    text = [
        "| no. | resource | kind | discoverable | secure | unsecure | wildcards | verbs | link of /yard |",
        "|---" * 9 + "|",
    ]
    for n, path in sorted(paths.items()):
        entry = entries[n].split()
        security = entry == ["security"]
        if not security and (entry[0] != "application" or len(entry) != 4):
            raise Changed(f"Directory.antt: entry {n} is '{entries[n]}'")
        shown, secure, unsecure = (True, True, False) if security else tuple(flag == "true" for flag in entry[1:])
        wildcards = (
            [] if security else [w for w, on in (("+", shown and secure), ("-", shown and unsecure), ("*", True)) if on]
        )
        verbs = ("RETRIEVE, OBSERVE, UPDATE" + (", DELETE" if n in (2, 3) else "")) if security else "all five"
        text.append(
            f"| {n} | {path} | {'security' if security else 'application'} | {yes[shown]} | {yes[secure]} | {yes[unsecure]} | "
            f"{' '.join(wildcards) or 'none'} | {verbs} | {yes[n in links]} |"
        )
    return "\n".join(text)


# ---- the rules in short, as the header has them


def header_rules():
    """The lines of the header on moves, writes and endpoints."""
    names = states()
    lines = []
    for state in sorted(set(names) - {0}):
        targets = {
            condition: ", ".join(names[t] for s, t, c in moves() if s == state and c == condition)
            for condition in ("true", "has_owner")
        }
        lines.append(
            f"{names[state]} to {targets['true']}"
            + (f"; to {targets['has_owner']} if owned is 1" if targets["has_owner"] else "")
        )
    words = ("doxm", "row owners", "rows of cred and acl2", "target")
    for row in rows_of(writes_table())[1:]:
        taken = [
            word + (" if its owned is 1" if cell.startswith("owned") else "")
            for word, cell in zip(words, row[1:5])
            if cell != "no"
        ]
        if taken.pop() != "target":
            raise Changed("a state takes no target")
        lines.append(f"{row[0].split()[1]} takes {', '.join(taken) or 'none of them'}")
    groups = {("yes", "yes"): "secure and unsecure", ("yes", "no"): "only secure", ("no", "yes"): "only unsecure"}
    paths = {path: name for name, _, path, _ in named("Resource")}
    rows = [row for row in rows_of(directory_table())[1:] if row[2] == "application"]
    for flags, words_of in groups.items():
        lines.append(f"{words_of}: " + ", ".join(paths[row[1]] for row in rows if (row[4], row[5]) == flags))
    return lines


def check_header_rules():
    """Each of them is a line of the header, and it has no other such line."""
    shown = re.findall(r"^ \*     (\S.*)$", read(HEADER).split("/* ---- The rules in short")[1].split("*/")[0], re.M)
    for line in header_rules():
        if line not in shown:
            fault(f"{HEADER}: by the definitions a line of the rules in short is '{line}'")
    if len(shown) != len(header_rules()):
        fault(f"{HEADER}: the rules in short have {len(shown)} lines, and by the definitions {len(header_rules())}")


# ---- the page


def answers(page):
    return {
        "answers": answers_table(page),
        "calls": calls_table(),
        "directory": directory_table(),
        "states": states_table(),
        "writes": writes_table(),
    }
