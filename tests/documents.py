#!/usr/bin/env python3
"""Compares the documents with the sources. Exit status 1: a line for each thing that is not as it is said.

    tests/documents.py            compares
    tests/documents.py --write    first makes docs/pictures/*.svg, the tables of docs/PICTURES.md and ANSWERS.md, and RULES.md anew

ARCHITECTURE.md the layers with crates.txt; what must be believed with what the contracts cite
PROOFS.md, THEOREMS-RULES.md, THEOREMS-RUNS.md
                each theorem that its tables name is exported with a statement by a file named, and that statement's names are defined in
                specs/ (tests/statements.py); each function stands in the file or crate;
                each public function with a `requires` is in the table of what is asked for; each function for C is an entry point
README.md, ARCHITECTURE.md, INTEGRATION.md, SECURITY.md, CHANGELOG.md, SECURITY-MODEL.md, ASSESSOR.md, ANSWERS.md, TARGETS.md, BENCHMARKS.md, PICTURES.md
                each theorem that is named before its file, as `name` (crate/proofs/File.antt), stands there, and each
                `crate::function` is one
CHANGELOG.md    its first heading is the interface's version, and it names the format's; the lengths of tables, rows and waiting records are today's
MUST-FAIL.md, MUST-FAIL-RULES.md
                each edit has a row, and each row its edit; the rows of two edits or more name each entry point
PICTURES.md     the layouts and tables with those made from the definitions
pictures/*.svg  with those drawn from the definitions and from pictures/*.txt (tests/pictures.py); each is shown once
RULES.md        the page with the one made from the typed definitions and docs/trace.txt (tests/rules.py)
ANSWERS.md      the tables with those made from the header, the words of names.rs and the definitions; the columns
                'usual cause' and 'what to do' are written by hand in the page, and kept
tillerclover.h  offsets, lengths and shifts with the definitions; so the rules in short: moves, writes, endpoints
tillerclover_yards.h
                the identity and the reasons' numbers with the definitions
all pages       at most 30 kB, but for RULES.md, which is made, and PORT.md, in which things are looked up
GLOSSARY.md     each name in code letters is in the sources
"""
import difflib
import glob
import os
import re
import sys

sys.dont_write_bytecode = True
from answers import ANSWERS, answers, check_header_rules  # noqa: E402
from claims import check_changelog, check_cited, check_edits, check_proofs  # noqa: E402
from layouts import check_header, check_yards, layouts, tables_table, waiting_table  # noqa: E402
from pictures import (
    boundary_picture,
    layers_picture,
    order_picture,
    sequence_picture,
    states_picture,
    way_picture,
)  # noqa: E402
from rules import renew_rules  # noqa: E402
from sources import Changed, crates, fault, faults, read  # noqa: E402

PAGE = "docs/PICTURES.md"
HOUSE = "docs/ARCHITECTURE.md"
# bytes of a page
LONGEST = 30_720
CITED = [
    "README.md",
    HOUSE,
    "docs/INTEGRATION.md",
    "SECURITY.md",
    "CHANGELOG.md",
    "docs/SECURITY-MODEL.md",
    "docs/ASSESSOR.md",
    "docs/ANSWERS.md",
    "docs/GLOSSARY.md",
    "docs/TARGETS.md",
    "docs/BENCHMARKS.md",
    PAGE,
    "docs/pictures/way.txt",
    "docs/pictures/boundary.txt",
]


# ---- layers


def layers():
    """(layer, crates) from the top, as ARCHITECTURE.md has them."""
    table = re.search(r"\| layer \| crates \|\n\|---\|---\|\n((?:\|.*\|\n)+)", read(HOUSE))
    if not table:
        raise Changed(f"{HOUSE} has no table of layers")
    rows = [line.strip("|").split("|") for line in table.group(1).strip().split("\n")]
    return [(row[0].strip(), re.findall(r"`(\w+)`", row[1])) for row in rows]


def check_layers():
    listed, place = crates(), {}
    for level, (layer, names) in enumerate(layers()):
        for name in names:
            if name not in listed:
                fault(f"{HOUSE}: '{name}' of the layer '{layer}' is no crate of crates.txt")
            if name in place:
                fault(f"{HOUSE}: {name} stands in two layers")
            place[name] = level
    for name, below in listed.items():
        if name not in place:
            fault(f"{HOUSE}: {name} stands in no layer")
            continue
        for other in below:
            if other in place and place[other] < place[name]:
                fault(f"{HOUSE}: {name} stands below {other}, which it depends on")


def layers_drawn():
    listed, rows = crates(), layers()
    level = {name: i for i, (_, names) in enumerate(rows) for name in names}
    edges = {
        (level[a], level[b])
        for a, below in listed.items()
        for b in below
        if a in level and b in level and level[a] < level[b]
    }
    # an arrow that follows from others is left out
    reach = {}
    for i in reversed(range(len(rows))):
        direct = sorted(b for a, b in edges if a == i)
        reach[i] = set(direct).union(*(reach[b] for b in direct)) if direct else set()
    drawn = sorted((a, b) for a, b in edges if not any(b in reach[c] for x, c in edges if x == a and c != b))
    return layers_picture(rows, drawn)


def check_believed():
    """ARCHITECTURE names the crates whose specs/ a contract cites."""
    cited = set()
    for path in glob.glob("crates/*/src/**/*.rt", recursive=True):
        cited |= set(re.findall(r"^ *ghost use Rattle\.(\w+)\.specs\.", read(path), re.M)) & set(crates())
    sentence = re.search(r"^What must be believed is (.*?)\. The theorem", read(HOUSE), re.M)
    if not sentence:
        raise Changed(f"{HOUSE} does not say what must be believed")
    named = set(re.findall(r"`(\w+)`", sentence.group(1)))
    for name in sorted(cited ^ named):
        where = (
            f"a contract cites it, and {HOUSE} does not name it"
            if name in cited
            else f"{HOUSE} names it, and no contract cites it"
        )
        fault(f"what must be believed: {name}/specs: {where}")


# ---- words


def check_lengths():
    """No page that is written by hand is longer than a reader takes at once."""
    for page in sorted(glob.glob("*.md") + glob.glob("docs/**/*.md", recursive=True)):
        if page not in ("docs/RULES.md", "docs/PORT.md") and os.path.getsize(page) > LONGEST:
            fault(
                f"{page}: {os.path.getsize(page):,} bytes; a page has at most {LONGEST:,}, and what is more is a page of its own"
            )


def check_glossary():
    page = read("docs/GLOSSARY.md")
    sources = "\n".join(
        read(path)
        for path in glob.glob("crates/*/specs/**/*.antt", recursive=True)
        + glob.glob("crates/*/src/**/*.rt", recursive=True)
    )
    known = set(re.findall(r"\w+", sources))
    for name in set(re.findall(r"`(\w+)`", page)) - known:
        fault(f"GLOSSARY.md: there is no {name} in the sources")


# ---- the pictures


def boundary_drawn():
    """The trust boundary, with the functions that C can call."""
    functions = []
    for header in ("include/tillerclover.h", "include/tillerclover_store.h", "include/tillerclover_yards.h"):
        functions += re.findall(r"^(?:void|uint64_t) tillerclover_(\w+?)(?:_at)?\(", read(header), re.M)
    if "judge" not in functions or "store_next" not in functions:
        raise Changed("the headers declare their functions in another form")
    return boundary_picture(functions)


def way_drawn():
    """The way from the paper to the processor, with the number of records that are compared."""
    compared = re.search(r"--records (\d+)", read("tests/groups/compare.sh"))
    if not compared:
        raise Changed("tests/groups/compare.sh compares no number of records")
    return way_picture(int(compared.group(1)))


DRAWN = {
    "states": states_picture,
    "order": order_picture,
    "sequence": sequence_picture,
    "layers": layers_drawn,
    "way": way_drawn,
    "boundary": boundary_drawn,
}


def renew_pictures(write):
    """Compares docs/pictures/*.svg with what the sources give today, or writes them. Each is shown by one page."""
    shown = re.findall(r"\(pictures/(\w+)\.svg\)", "".join(read(page) for page in sorted(glob.glob("docs/*.md"))))
    for name in sorted(glob.glob("docs/pictures/*.svg")):
        if os.path.basename(name)[:-4] not in DRAWN:
            fault(f"{name}: nothing draws it")
    for name, draw in DRAWN.items():
        path, drawn = f"docs/pictures/{name}.svg", draw()
        if shown.count(name) != 1:
            fault(f"{path} is shown {shown.count(name)} times")
        if write:
            with open(path, "w", encoding="utf-8") as file:
                file.write(drawn)
        elif not os.path.exists(path) or read(path) != drawn:
            fault(f"{path} is not what the sources give today; tests/documents.py --write draws it")


def pictures():
    drawn = layouts()
    check_header(drawn)
    made = {name: "```\n" + layout.draw() + "\n```" for name, layout in drawn.items()}
    made.update(tables=tables_table(), waiting=waiting_table())
    return made


def renewed(path, page, made):
    left = set(made)

    def block(match):
        name = match.group(1)
        if name not in made:
            fault(f"{path}: nothing that is made is called '{name}'")
            return match.group(0)
        left.discard(name)
        return f"<!-- {name}, by tests/documents.py -->\n\n{made[name]}\n\n<!-- end -->"

    text = re.sub(r"<!-- (\w+), by tests/documents\.py -->\n(.*?)<!-- end -->", block, page, flags=re.S)
    for name in sorted(left):
        fault(f"{path} has no '{name}'")
    return text


def renew(path, make, write):
    """Compares what is made in a page with today's, or writes it."""
    page = read(path)
    text = renewed(path, page, make(page))
    if write:
        with open(path, "w", encoding="utf-8") as file:
            file.write(text)
    elif text != page:
        fault(f"{path} is not what the sources give today; tests/documents.py --write renews it:")
        faults.extend(
            line for line in difflib.unified_diff(page.split("\n"), text.split("\n"), "page", "today", lineterm="", n=1)
        )


def main(words):
    if words not in ([], ["--write"]):
        print(__doc__.strip(), file=sys.stderr)
        return 2
    try:
        check_layers()
        check_lengths()
        check_glossary()
        check_believed()
        check_proofs()
        check_edits()
        check_changelog()
        check_yards()
        check_header_rules()
        for cited in CITED:
            check_cited(cited)
        renew(PAGE, lambda page: pictures(), bool(words))
        renew(ANSWERS, answers, bool(words))
        renew_pictures(bool(words))
        renew_rules(bool(words))
    except Changed as changed:
        print(f"documents: {changed}")
        return 1
    for line in faults:
        print(line if line.startswith(("+", "-", "@", " ")) else f"documents: {line}")
    return 1 if faults else 0


sys.exit(main(sys.argv[1:]))
