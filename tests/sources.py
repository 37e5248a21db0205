"""What the tests of documents read: files, definitions, the header. Faults are collected here."""
import glob
import math
import os
import re

os.chdir(os.path.join(os.path.dirname(os.path.abspath(__file__)), ".."))

HEADER = "include/tillerclover.h"
NAMES = "bindings/rust/src/names.rs"
faults = []


class Changed(Exception):
    """A source does not have the form that the pictures are made from."""


def fault(text):
    faults.append(text)


def read(path):
    with open(path, encoding="utf-8") as file:
        return file.read()


# ---- definitions


def definitions(path):
    """The right side of each definition of one clause: its lines joined, without comments."""
    found = {}
    for block in re.split(r"\n\s*\n", read(path)):
        lines = [line for line in block.split("\n") if line.strip() and not line.lstrip().startswith("--")]
        for place, line in enumerate(lines):
            match = re.match(r"(\w+)(?: [^=]*?)? =(?: |$)(.*)", line)
            if match and not line.startswith(" "):
                rest = []
                for more in lines[place + 1 :]:
                    if not more.startswith(" "):
                        break
                    rest.append(more.strip())
                found.setdefault(line[: match.start(2)].rstrip("= "), " ".join([match.group(2)] + rest).strip())
    return found


SPECS = {
    name: definitions(f"crates/{path}.antt")
    for name, path in {
        "Sizes": "rules/specs/Sizes",
        "Record": "rules/specs/Record",
        "Bodies": "rules/specs/Bodies",
        "Roles": "rules/specs/Roles",
        "Action": "rules/specs/Action",
        "States": "rules/specs/States",
        "Tables": "rules/specs/Tables",
        "Old": "rules_legacy/specs/OldList",
        "Slots": "rules_terminal/specs/Slots",
        "Waiting": "rules_terminal/specs/Terminal",
        "Checks": "rules/specs/Checks",
        "Groups": "rules/specs/Promises/Groups",
        "Directory": "rules/specs/Directory",
    }.items()
}


def right_side(spec, left):
    """The definition whose left side is `left`, or starts with it and a parameter."""
    for key, text in SPECS[spec].items():
        if key == left or key.startswith(left + " "):
            return text
    raise Changed(f"{spec}.antt has no definition of {left}")


def number(spec, left):
    """The value of a definition: a number, a name of the same file or of Sizes.antt, or a sum of products of these."""
    text = right_side(spec, left)

    def value(factor):
        if factor.isdigit():
            return int(factor)
        for home in (spec, "Sizes"):
            if factor in SPECS[home]:
                return number(home, factor)
        raise Changed(f"{spec}.antt: {left} is '{text}', and not a number")

    return sum(math.prod(value(factor) for factor in term.split(" * ")) for term in text.split(" + "))


def found(spec, left, pattern):
    """The number that the pattern finds in a definition."""
    match = re.search(pattern, right_side(spec, left))
    if not match:
        raise Changed(f"{spec}.antt: {left} has no '{pattern}'")
    return int(match.group(1))


# ---- the header, tables of documents, names


def enum(name):
    match = re.search(r"enum " + name + r" \{(.*?)\};", read(HEADER), re.S)
    if not match:
        raise Changed(f"{HEADER} has no enum {name}")
    return match.group(1)


def rows_of(text):
    """The cells of each row of the tables in a text."""
    lines = [line.strip() for line in text.split("\n")]
    return [
        [cell.strip() for cell in line[1:-1].split(" | ")]
        for line in lines
        if line.startswith("|") and not line.startswith("|---")
    ]


def crates():
    """Each crate of crates.txt with those that it names, from the bottom up."""
    listed = {}
    for line in read("crates.txt").split("\n"):
        if line and not line.startswith("#"):
            # a name may have words behind it, as `staticlib`
            name, rest = line.split(":")
            listed[name.split()[0]] = rest.split()
    return listed


def imported(tree):
    """Each path of a `use` as its parts: `a::{b, c::d}` brings a::b and a::c::d."""
    head, brace, inner = tree.partition("{")
    before = [part for part in head.strip().split("::") if part]
    if not brace:
        return [before] if before else []
    paths, depth, entry = [], 0, ""
    for letter in inner[: inner.rindex("}")] + ",":
        depth += {"{": 1, "}": -1}.get(letter, 0)
        if letter == "," and not depth:
            paths += [before + path for path in imported(entry)]
            entry = ""
        else:
            entry += letter
    return paths


def imports(text, word="use"):
    """The paths that the `use` items of a source bring; with "pub use" those that it passes on."""
    pattern = r"^(?:pub )?use ([^;]+);" if word == "use" else rf"^{word} ([^;]+);"
    return [path for tree in re.findall(pattern, text, re.M) for path in imported(tree)]


def functions_of(path):
    files = [path] if path.endswith(".rt") else glob.glob(f"{path}/**/*.rt", recursive=True)
    return {name for file in files if os.path.exists(file) for name in re.findall(r"\bfn (\w+)", read(file))}


def exports(path, name):
    """Whether an .antt file exports the name with a statement, or as a record or data type, and its crate exports the file."""
    folder, file = os.path.split(path)
    node = f"{folder}/Lib.antt" if os.path.basename(folder) in ("specs", "proofs") else f"{folder}.antt"
    if not re.search(rf"^pub mod {file[:-5]}$", read(node), re.M):
        return False
    word = re.escape(name)
    return bool(
        re.search(rf"^ *(?:(?:unfoldable|abbrev) )?pub (?:{word} :|(?:record|data) {word}\s)", read(path), re.M)
    )


def contracts():
    """(crate, function, contract) of each public function that another crate, or C, can call; the contract with the parameters."""
    for path in sorted(glob.glob("crates/*/src/**/*.rt", recursive=True)):
        crate, module = path.split("/")[1], os.path.basename(path)[:-3]
        root = f"crates/{crate}/src/lib.rt"
        head = read(root) if os.path.exists(root) else ""
        seen = module in ("lib", "main") or re.search(rf"^pub mod {module};", head, re.M)
        passed_on = {parts[-1] for parts in imports(head, "pub use") if parts[:-1] in (["crate", module], [module])}
        # a type that is passed on brings its functions with it
        seen = seen or any(name[0].isupper() for name in passed_on)
        for c, name, contract in re.findall(r"^ *pub (extern \"C\" )?fn (\w+)(.*?)^ *\{$", read(path), re.M | re.S):
            if seen or c or name in passed_on:
                yield crate, name, c + contract


def asks(contract):
    return bool(re.search(r"^ *requires\b", contract, re.M))
