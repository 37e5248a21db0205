"""What the pages claim by name: theorems, functions, must-fail edits, files, the versions and lengths of the change log. Each is in
the sources.
"""
import glob
import os
import re

from layouts import struct_fields
from sources import HEADER, asks, contracts, exports, fault, functions_of, number, read, rows_of
from statements import check_statements

THEOREMS = ["docs/THEOREMS-RULES.md", "docs/THEOREMS-RUNS.md"]
EDITS = ["docs/MUST-FAIL.md", "docs/MUST-FAIL-RULES.md"]


def files_of(cells):
    """The .antt files that a row names: one that is named alone stands beside the one before it, or in rules/proofs."""
    folder, paths = None, []
    for name in re.findall(r"[\w/]+\.antt", " ".join(cells)):
        choices = [f"crates/{name}"] if "/" in name else [f"{f}/{name}" for f in (folder, "crates/rules/proofs") if f]
        path = next((choice for choice in choices if os.path.exists(choice)), None)
        if path is None:
            fault(f"PROOFS.md: there is no file {choices[0]}")
            continue
        folder = os.path.dirname(path)
        paths.append(path)
    return paths


def check_proofs():
    text = read("docs/PROOFS.md")
    claims = text.split("## Twelve claims")[1].split("\n## ")[0]
    told = text.split("## Contracts")[1]
    theorems = "\n".join("\n".join(read(page).split("\n|---|---|---|\n")[1:]) for page in THEOREMS)
    stated = []
    for cells in [row[1:] for row in rows_of(claims)[1:]] + rows_of(theorems):
        paths = files_of(cells[1:])
        for name in re.findall(r"`([^`]+)`", cells[1]):
            homes = [path for path in paths if exports(path, name)]
            if not homes:
                fault(f"PROOFS.md: {name} is exported with a statement by no file that its row names")
            stated += [(path, name) for path in homes]
    check_statements(stated)
    told = told.split("## The reviewer's")[0]
    entries, rest = told.split("Between the layers")
    between, asked = rest.split("Some of them ask something")
    for part in (entries, between, asked):
        check_functions(part)
    check_asked_for(named_in(asked))
    check_entry_points(named_in(entries))


def named_in(text):
    """(crate, function) of each function in the rows' first cells. A name without a crate has that of the name before it, and one
    like `_clear` begins as that does."""
    named = []
    for cells in rows_of(text):
        crate = before = ""
        for words in re.findall(r"`((?:\w+::)*\w+)`", cells[0]):
            first, name = words.split("::")[0], words.split("::")[-1]
            crate = first if os.path.isdir(f"crates/{first}") else crate
            if words != crate:
                before = before.split("_")[0] + name if name.startswith("_") else name
                named.append((crate, before))
    return named


def check_functions(text):
    """A function in a row's first cell stands in its crate, in a file of it that the last cell names, if that names any."""
    for cells in rows_of(text):
        files = re.findall(r"\w+/src(?:/\w+\.rt)?", cells[-1])
        for crate, name in named_in("| " + " | ".join(cells) + " |"):
            paths = [path for path in files if path.startswith(f"{crate}/") or not crate] if files else [f"{crate}/src"]
            if not any(name in functions_of(f"crates/{path}") for path in paths):
                fault(f"PROOFS.md: there is no function {name} in {' or '.join(paths) or crate}")


def check_asked_for(named):
    """The table of what is asked for has each public function with a `requires`, and no other."""
    asking = {(crate, name) for crate, name, contract in contracts() if asks(contract)}
    for crate, name in sorted(asking - set(named)):
        fault(f"PROOFS.md: {crate}::{name} has a requires, and no row says what it asks for")
    for crate, name in sorted(set(named) - asking):
        fault(f"PROOFS.md: {crate}::{name} asks for nothing, and a row says what")


def check_entry_points(named):
    """An entry point has no `requires`, and two edits of its crate whose rows name it. Each function for C is one, or has the name, the
    parameters and the contract of one, to the letter."""
    public = {(crate, name): contract for crate, name, contract in contracts()}
    for (crate, name), contract in sorted(public.items()):
        if 'extern "C"' in contract and (crate, name) not in named:
            same = [public.get(key, "").split() for key in named if key[1] == name]
            if contract.replace('extern "C" ', "", 1).split() not in same:
                fault(
                    f"PROOFS.md: {crate}::{name} is no entry point of the table and promises otherwise, and C calls it"
                )
    rows = [row for page in EDITS for row in rows_of(read(page))[1:]]
    for crate, name in named:
        if asks(public.get((crate, name), "requires")):
            fault(f"PROOFS.md: the entry point {crate}::{name} is not public, or has a requires")
        many = sum(cells[0] == crate and f"`{name}`" in cells[2] for cells in rows)
        if many < 2:
            fault(f"MUST-FAIL.md: {many} edits of the entry point {crate}::{name}, and two are asked for")


def check_cited(page):
    """Theorems before their file in brackets, and functions after their crate."""
    text = read(page)
    for names, path in re.findall(r"((?:`[^`\n]+`(?:, | and )?)+) \((\w+/[\w/]+\.antt)\)", text):
        if not os.path.exists(f"crates/{path}"):
            fault(f"{page}: there is no file crates/{path}")
            continue
        for name in re.findall(r"`([^`]+)`", names):
            if not exports(f"crates/{path}", name):
                fault(f"{page}: {name} does not stand in crates/{path}")
    for crate, name in re.findall(r"`(\w+)::(?:\w+::)*(\w+)`", text):
        # `tillerclover::..` is the library's name in CMake and in Rust
        if crate != "tillerclover" and name not in functions_of(f"crates/{crate}/src"):
            fault(f"{page}: there is no function {name} in crates/{crate}/src")
    for path in set(
        re.findall(
            r"(?<![\w/.])((?:docs|tests|targets|include|examples|model|bindings|tool|bench|crates|packaging)/[\w./-]*\w)",
            text,
        )
    ):
        if not os.path.exists(path) and "target" not in path:
            fault(f"{page}: there is no {path}")


def check_changelog():
    text, header = read("CHANGELOG.md"), read(HEADER)
    version = ".".join(
        re.search(rf"#define TILLERCLOVER_INTERFACE_{part} (\d+)", header).group(1) for part in ("MAJOR", "MINOR")
    )
    heading = re.search(r"^## ([\d.]+)", text, re.M)
    if not heading or heading.group(1) != version:
        fault(f"CHANGELOG.md: the first heading is not that of version {version}")
    stored = re.search(r"#define TILLERCLOVER_FORMAT (\d+)", header).group(1)
    if f"### Format {stored}\n" not in text:
        fault(f"CHANGELOG.md: no heading names format {stored}")
    said = {cells[0]: cells[1] for cells in rows_of(text) if len(cells) == 3}
    for row, long in (
        ("the tables", struct_fields()[1]),
        ("a credential row", number("Tables", "stride Creds")),
        ("an access row", number("Tables", "stride Aces")),
        ("waiting records", number("Slots", "queue_size")),
    ):
        if said.get(row) != f"{long:,}":
            fault(f"CHANGELOG.md: {row}: {said.get(row)}, and today {long:,}")


def check_edits():
    edits = {
        tuple(re.fullmatch(r"crates/(\w+)/must-fail/(\w+)\.edit", path).groups())
        for path in glob.glob("crates/*/must-fail/*.edit")
    }
    rows = []
    for page in EDITS:
        listed = [(cells[0], cells[1].strip("`")) for cells in rows_of(read(page))[1:]]
        if len(listed) != len(set(listed)):
            fault(f"{page}: an edit stands twice")
        if any(crate.startswith("rules") != (page == EDITS[1]) for crate, _ in listed):
            fault(
                f"{page}: an edit of the definitions stands among those of the code, or one of the code among the others"
            )
        rows += listed
    for crate, edit in sorted(edits ^ set(rows)):
        fault(
            f"MUST-FAIL.md: {crate}/must-fail/{edit}.edit "
            + ("has no row" if (crate, edit) in edits else "is not there, and has a row")
        )
