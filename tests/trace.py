#!/usr/bin/env python3
"""Looks at docs/trace.txt, and makes a page of it: each sentence of the papers with its definition, code, theorem, must-fail edit and test.

    tests/trace.py                   each sentence has one row, and each name is there. Exit status 1: a line for each fault
    tests/trace.py --page            prints the page, of which `make docs` makes HTML
    tests/trace.py --papers 01 02    compares the papers (two files) by their sums, and prints each sentence before its row

The papers are not in the repository. A sentence is named by its section and its number there. What counts as one: a sentence of a
paragraph or of an item of a list, a row of a table (its heading too), a block of code, and the title of a request.
"""
import glob
import hashlib
import os
import re
import sys

sys.dont_write_bytecode = True
from antt import Project, Uses, variables, without_comments, words_of  # noqa: E402
from sources import Changed, fault, faults, functions_of, read  # noqa: E402
from statements import is_examples  # noqa: E402

SOURCE = "docs/trace.txt"
# the parts of a row after its sentence and what it asks
PARTS = ["definition", "code", "theorem", "edit", "test"]
# programs: no contract can say what is read or written
NO_CONTRACT = {"run::main", "vectors::walk"}
# the rules as one reads them: a name that is there and elsewhere means the one there
RULES = "rules_typed"
# a name that an .antt file exports
EXPORTED = r"^ *(?:(?:unfoldable|abbrev) )?pub (?:record |data )?(\S+)(?= |$)"


class Row:
    def __init__(self, names, words, parts):
        self.names, self.words, self.parts = names, words, parts

    def label(self):
        first, last = self.names[0], self.names[-1]
        return first if first == last else f"{first}-{last.split('.')[1]}"

    def is_rule(self):
        return self.parts is not None


# ---- the source


def parsed():
    """Papers as (number, sum, sections), and the rows; a section is (word, number of its sentences)."""
    papers, rows = [], []
    for line in read(SOURCE).split("\n"):
        if not line or line.startswith("#"):
            continue
        if line.startswith("paper "):
            _, number, total = line.split()
            papers.append((number, total, []))
        elif line.startswith("section "):
            _, word, many = line.split()
            papers[-1][2].append((word, int(many)))
        else:
            rows.append(parsed_row(line))
    return papers, rows


def parsed_row(line):
    cells = [cell.strip() for cell in line.split(" | ")]
    match = re.fullmatch(r"(\w+)\.(\d+)(?:-(\d+))?", cells[0])
    if not match or len(cells) not in (2, 2 + len(PARTS)):
        raise Changed(f"{SOURCE}: this is no row: {line[:60]}")
    word, first, last = match.group(1), int(match.group(2)), int(match.group(3) or match.group(2))
    names = [f"{word}.{n}" for n in range(first, last + 1)]
    parts = (
        None if len(cells) == 2 else {part: [] if cell == "-" else cell.split() for part, cell in zip(PARTS, cells[2:])}
    )
    return Row(names, cells[1], parts)


def check_sentences(papers, rows):
    """Each sentence has one row, and the rows stand in the papers' order."""
    asked = [f"{word}.{n}" for _, _, sections in papers for word, many in sections for n in range(1, many + 1)]
    given = [name for row in rows for name in row.names]
    for name in asked:
        if given.count(name) != 1:
            fault(f"{SOURCE}: {name} has {given.count(name)} rows")
    for name in set(given) - set(asked):
        fault(f"{SOURCE}: the papers have no sentence {name}")
    if given != asked and set(given) == set(asked):
        fault(f"{SOURCE}: the rows do not stand in the papers' order")


# ---- the names: each must be there, and mean one thing


class Names:
    """Where the exported definitions and theorems stand: File.name, or a name alone. Of two the one of `RULES` is meant; another has
    crate/ before it."""

    def __init__(self, folder):
        self.folder, self.places = folder, {}
        for path in sorted(glob.glob(f"crates/*/{folder}/**/*.antt", recursive=True)):
            for name in re.findall(EXPORTED, read(path), re.M):
                self.places.setdefault(name, []).append(path)

    def paths(self):
        return {path for paths in self.places.values() for path in paths}

    def file_of(self, name):
        crate, rest = name.split("/") if "/" in name else (None, name)
        file, word = rest.split(".") if "." in rest else (None, rest)
        paths = [
            path
            for path in self.places.get(word, [])
            if crate in (None, path.split("/")[1]) and file in (None, os.path.basename(path)[: -len(".antt")])
        ]
        if len(paths) > 1 and crate is None:
            paths = [path for path in paths if path.split("/")[1] == RULES] or paths
        if len(paths) != 1:
            fault(f"{SOURCE}: {name} stands in {' and '.join(paths) or f'no file of {self.folder}'}")
            return None, word
        return paths[0], word


def check_code(name):
    """The function is there, and has a contract."""
    crate, word = name.split("::")
    if word not in functions_of(f"crates/{crate}/src"):
        fault(f"{SOURCE}: there is no function {name}")
        return
    sources = "\n".join(read(path) for path in glob.glob(f"crates/{crate}/src/**/*.rt", recursive=True))
    heads = re.findall(rf"\bfn {word}\b(.*?)^ *\{{$", sources, re.M | re.S)
    if name not in NO_CONTRACT and not any("ensures" in head for head in heads):
        fault(f"{SOURCE}: {name} has no contract")


def test_files():
    """The files that hold tests, and the cases of the comparison, by their names; two of the model and its mutants may share one."""
    found = {}
    for pattern in (
        "model/src/tests/**/*.rs",
        "model/tests/**/*.rs",
        "bindings/rust/tests/*.rs",
        "answers/tests/*.rs",
        "tool/tests/*.rs",
        "tests/*.c",
        "tests/*.sh",
    ):
        for path in sorted(glob.glob(pattern, recursive=True)):
            found.setdefault(os.path.basename(path), []).append(path)
    found["run.sh"] = sorted(glob.glob("tests/groups/*.sh"))
    found["systematic.rs"] = sorted(glob.glob("model/src/systematic/*.rs"))
    return found


def has_test(path, word):
    text = read(path)
    if path.startswith("model/src/systematic/"):
        called = rf"^    \w+::{word}\(&mut groups"
        return re.search(rf"^pub\(super\) fn {word}\(groups: ", text, re.M) and re.search(
            called, read("model/src/systematic.rs"), re.M
        )
    if path.endswith(".rs"):
        return re.search(rf"#\[test\]\nfn {word}\(", text)
    if path.endswith(".c"):
        return re.search(rf"^static void {word}\(", text, re.M) and re.search(rf"^    {word}\(", text, re.M)
    return re.search(rf"^test_{word}\(\)", text, re.M)


def test_file(name, files):
    """The file of a test, or a page, or a program's expected output."""
    if ":" not in name:
        if not os.path.exists(name):
            fault(f"{SOURCE}: there is no {name}")
        return name
    file, word = name.split(":")
    paths = [path for path in files.get(file, []) if has_test(path, word)]
    if len(paths) != 1:
        fault(f"{SOURCE}: the test {name} stands in {' and '.join(paths) or 'no file'}")
        return None
    return paths[0]


# ---- what is in a row belongs together


class Reach:
    """The definitions that a contract or a theorem's statement leads to, through definitions. A name is found by the `use` and `ghost use`
    lines of its file, so that two definitions of one name are two."""

    def __init__(self):
        self.project, self.found, self.read_as = Project(), {}, {}
        # a theorem that says of a definition over bytes how `RULES` puts it leads from the one to the other
        for path in sorted(glob.glob(f"crates/{RULES}/proofs/*.antt")):
            for part in self.project.file(path).declarations:
                named = self.statement((path, part.name))
                typed = {place for place in named if place[0].startswith(f"crates/{RULES}/specs/")}
                for place in named - typed:
                    self.read_as.setdefault(place, set()).update(typed)

    def named(self, path, uses, text):
        """The definitions that a text of the file names, each as its file and its name."""
        bound = variables(text)
        meant = {self.project.meaning(path, uses, word.strip("«»"), bound) for word in words_of(text)} - {None}
        return {(home, owner.name) for home, name in meant for owner in self.project.file(home).owner(name)}

    def texts(self, place, whole):
        path, name = place
        parts = self.project.file(path).declared(name)
        return [
            "\n".join(part.around + [part.statement] + ([part.body] if whole or part.short else [])) for part in parts
        ]

    def statement(self, place):
        """What a theorem's statement names."""
        return {
            there
            for text in self.texts(place, False)
            for there in self.named(place[0], self.project.file(place[0]).uses, text)
        }

    def following(self, place):
        """What a definition names, or the rows, tables and runs that an example is of."""
        if place not in self.found:
            texts = self.texts(place, "/specs/" in place[0] or is_examples(place[0]))
            self.found[place] = {
                there for text in texts for there in self.named(place[0], self.project.file(place[0]).uses, text)
            }
        return self.found[place]

    def contract(self, name):
        """What the contract of a function names."""
        crate, word = name.split("::")
        places = set()
        for path in sorted(glob.glob(f"crates/{crate}/src/**/*.rt", recursive=True)):
            text = without_comments(read(path))
            for head in re.findall(rf"\bfn {word}\b(.*?)^ *\{{$", text, re.M | re.S):
                places |= self.named(path, Uses(text, "ghost use"), head)
        return places

    def check(self, row, definitions, theorems):
        """Each definition of the row is reached from the contract of its code, or from the statement of its theorems."""
        if not row.parts["code"] and not row.parts["theorem"]:
            return
        ahead = {place for name in row.parts["code"] for place in self.contract(name)}
        ahead |= {place for theorem in theorems if theorem[0] for place in self.statement(theorem)}
        reached = set()
        while ahead:
            place = ahead.pop()
            if place not in reached:
                reached.add(place)
                ahead |= self.following(place) | self.read_as.get(place, set())
        for name, place in zip(row.parts["definition"], definitions):
            if place[0] and place not in reached:
                fault(f"{SOURCE}: {row.label()}: neither a contract nor a theorem of the row speaks of {name}")


# ---- the page


def grouped(places):
    """'crate/File: names' for files and names; the crate's folder is that of the column."""
    files = {}
    for path, word in places:
        if path:
            parts = path.split("/")
            files.setdefault(f"{parts[1]}/{os.path.splitext('/'.join(parts[3:]))[0]}", []).append(f"`{word}`")
    return "; ".join(f"{file}: {', '.join(words)}" for file, words in files.items())


def cells_of(row, specs, proofs, files, reach):
    parts = row.parts
    definitions = [specs.file_of(name) for name in parts["definition"]]
    theorems = [proofs.file_of(name) for name in parts["theorem"]]
    reach.check(row, definitions, theorems)
    for name in parts["code"]:
        check_code(name)
    for name in parts["edit"]:
        crate, edit = name.split("/")
        if not os.path.exists(f"crates/{crate}/must-fail/{edit}.edit"):
            fault(f"{SOURCE}: there is no edit {name}")
    tests = {}
    for name in parts["test"]:
        path = test_file(name, files)
        if path:
            tests.setdefault(path, []).extend([f"`{name.split(':')[1]}`"] if ":" in name else [])
    shown = [f"{os.path.basename(path)}: {', '.join(words)}" if words else path for path, words in tests.items()]
    return [
        grouped(definitions),
        ", ".join(f"`{name}`" for name in parts["code"]),
        grouped(theorems),
        ", ".join(f"`{name}`" for name in parts["edit"]),
        "; ".join(shown),
    ]


def listed(rows):
    return ", ".join(row.label() for row in rows) or "none"


INTRO = """# Traceability

Each sentence of the papers with the definition that states it, the code that does it, the theorems over it, the must-fail edits that show what is refused, and the tests. Made by `tests/trace.py --page` from docs/trace.txt; `tests/run.sh documents` sees that every sentence has one row, that every name below is there, and that each definition of a row is reached, through definitions, from a contract or a theorem of that row. Whether a row is right a reader has to judge.

The papers are not in the repository. A sentence is named by its section and its number there. Who has the papers prints each sentence before its row, after a comparison of the sums, by `tests/trace.py --papers 01 02` with the two files.

| paper | SHA-256 |
|---|---|
%s

How to read a row:

- **definition**: `crate/File: name` stands in crates/CRATE/specs/FILE.antt. Definitions are what has to be believed.
- **code**: `crate::function`. Its contract equates what it does with the row's definitions, or with some that are made of them, for every input, and is proved; so a row with code is proved also where its column of theorems is empty. `run::main` and `vectors::walk` have no contract, since none can say what a program reads or writes.
- **theorem**: `crate/File: name` stands in crates/CRATE/proofs/FILE.antt. General theorems, and examples that compute. docs/THEOREMS-RULES.md and THEOREMS-RUNS.md say in words what each states.
- **must-fail edit**: crates/CRATE/must-fail/EDIT.edit. docs/MUST-FAIL.md or MUST-FAIL-RULES.md has its words.
- **test**: a test of that name. systematic.rs: cases by enumeration, on which the library and the second model are compared, call by call (`compare`); random ones of every kind follow. interface.c and the groups of run.sh are tests of the library and of the programs themselves. Other .rs files of model/ are tests of the second model, by hand or at random: they speak of the library through that comparison. model/tests/mutants sees that the cases tell wrong programs apart. A path is a page or an expected output.
"""


def page(papers, rows):
    specs, proofs, files = Names("specs"), Names("proofs"), test_files()
    reach = Reach()
    text = [INTRO % "\n".join(f"| {number} | `{total}` |" for number, total, _ in papers)]
    rules = [row for row in rows if row.is_rule()]
    without = {part: [row for row in rules if not row.parts[part]] for part in PARTS}
    named = {name for row in rules for name in row.parts["edit"]}
    edits = {
        "/".join(re.fullmatch(r"crates/(\w+)/must-fail/(\w+)\.edit", path).groups())
        for path in glob.glob("crates/*/must-fail/*.edit")
    }
    sentences = sum(len(row.names) for row in rows)
    text.append("## What is missing\n")
    text.append(
        f"{sentences} sentences in {len(rows)} rows; {sum(len(row.names) for row in rows if not row.is_rule())} of them ask for nothing that could "
        "be defined (reasons, headings, ways of speaking).\n"
    )
    text.append("| | rows |\n|---|---|")
    text.append(
        f"| neither code nor theorem: pages and must-fail edits alone | {listed([r for r in rules if not r.parts['code'] and not r.parts['theorem']])} |"
    )
    text.append(
        f"| no theorem over the definition; the code's contract alone | {listed([r for r in without['theorem'] if r.parts['code']])} |"
    )
    text.append(
        f"| no code: a claim over definitions, or over any calls that meet the contracts | {listed([r for r in without['code'] if r.parts['theorem']])} |"
    )
    text.append(f"| no must-fail edit | {listed(without['edit'])} |")
    text.append(f"| no test of its own | {listed(without['test'])} |")
    text.append(
        f"\nMust-fail edits that no row names; most are of the store, of power cuts and of the question of isolation, which the papers do not have: "
        f"{', '.join(f'`{edit}`' for edit in sorted(edits - named)) or 'none'}.\n"
    )
    section = None
    for row in rows:
        word = row.names[0].split(".")[0]
        if word != section:
            section = word
            text.append(
                f"\n## {word}\n\n| sentence | what it asks | definition | code | theorem | must-fail edit | test |\n|---|---|---|---|---|---|---|"
            )
        cells = cells_of(row, specs, proofs, files, reach) if row.is_rule() else ["no rule"] + [""] * 4
        text.append(f"| {row.label()} | {row.words} | " + " | ".join(cells) + " |")
    text.append("\n## Where the tests stand\n\n| file | |\n|---|---|")
    used = {test_file(name, files) for row in rules for name in row.parts["test"] if ":" in name}
    text += [f"| {os.path.basename(path)} | {path} |" for path in sorted(path for path in used if path)]
    return re.sub(r" +\|", " |", re.sub(r"\n{3,}", "\n\n", "\n".join(text))) + "\n"


# ---- the papers


def sections_of(text):
    """The sentences of each section, in their order."""
    sections, paragraph, code = [], [], None

    def end():
        if paragraph and sections:
            sections[-1].extend(re.split(r'(?<=[.?!])\*{0,2}\s+(?=[A-Z0-9"`(*])', " ".join(paragraph)))
        paragraph.clear()

    for line in text.split("\n"):
        if code is not None:
            if line.startswith("```"):
                sections[-1].append(" / ".join(code))
                code = None
            else:
                code.append(line)
            continue
        if line.startswith("```"):
            end()
            code = []
            continue
        if re.match(r"#+ |\*\*U\d+\.", line):
            end()
            sections.append([])
            if line.startswith("#"):
                continue
            line = re.sub(r"^\*\*U\d+\. ", "", line).replace("**", "", 1)
        if not line.strip() or line.startswith("|") or re.match(r"- |\d+\. ", line):
            end()
        if line.startswith("|") and not line.startswith("|---"):
            sections[-1].append(line)
        elif line.strip() and not line.startswith("|"):
            paragraph.append(re.sub(r"^(- |\d+\. )", "", line).strip())
    end()
    return sections


def with_papers(papers, rows, paths):
    """Prints each sentence before its row."""
    sentences = {}
    for (number, total, sections), path in zip(papers, paths):
        with open(path, "rb") as file:
            content = file.read()
        if hashlib.sha256(content).hexdigest() != total:
            fault(f"{path} is not the paper {number} that the rows are of: its sum differs")
            continue
        for (word, many), texts in zip(sections, sections_of(content.decode())):
            if len(texts) != many:
                fault(f"{path}: the section '{word}' has {len(texts)} sentences, and {SOURCE} says {many}")
            sentences.update({f"{word}.{n}": text for n, text in enumerate(texts, 1)})
    for row in rows:
        for name in row.names:
            print(f"{name}  {sentences.get(name, '?')}")
        print(f"    = {row.words}")
        for part in PARTS if row.is_rule() else []:
            print(f"      {part:<11}{' '.join(row.parts[part]) or '-'}")
        print()


def main(words):
    if words not in ([], ["--page"]) and not (len(words) == 3 and words[0] == "--papers"):
        print(__doc__.strip(), file=sys.stderr)
        return 2
    try:
        papers, rows = parsed()
        check_sentences(papers, rows)
        if words[:1] == ["--papers"]:
            with_papers(papers, rows, words[1:])
        else:
            made = page(papers, rows)
            if words:
                print(made, end="")
    except BrokenPipeError:
        # Who reads the rows has seen enough; nothing more is written at the end.
        os.dup2(os.open(os.devnull, os.O_WRONLY), sys.stdout.fileno())
        return 0
    except OSError as error:
        print(f"trace: {error.filename}: {error.strerror.lower()}")
        return 1
    except Changed as changed:
        print(f"trace: {changed}")
        return 1
    for line in faults:
        print(f"trace: {line}", file=sys.stderr if words else sys.stdout)
    return 1 if faults else 0


if __name__ == "__main__":
    sys.exit(main(sys.argv[1:]))
