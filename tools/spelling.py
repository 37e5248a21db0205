#!/usr/bin/env python3
"""Spells the repository's own definitions and lemmas as Rattle does: words in snake case.

usage: tools/spelling.py [--rest]    at the top of the repository, once, after /opt/rattle/port/port.py, with everything committed

A name in camel case or with dashes becomes one in snake case. Where a lemma would fall together with a definition, it gets `_lem`.
The folders and files specs/Contracts are called specs/Promises, since Rattle makes a module `specs.contracts`.
Functions of src/, exported names, strings, inputs and outputs keep their names.
With --rest the table of what is left is printed, and nothing is changed.
"""

import collections
import os
import re
import subprocess
import sys
import tempfile

SNAKE = "/opt/rattle/port/notes/2026-11-18-names-are-in-snake-case/snake.py"
ROOT = "crates"
DECLARED = re.compile(
    r"(?m)^ *(?:(?:abbrev|unfoldable|pub|opaque|private|record|data|field|constructor)\s+)*"
    r"([^\s(){}.;,@\"«»:]+)(?:\s*\{[^{}\n]*\}|\s*\([^()\n]*\))*\s*:(?=\s)"
)
COMMENT = re.compile(r"(?m)(?<![^\s(){}.;,@\"«»])--.*$")
# A word behind no dot, and that is no path's beginning.
BARE = re.compile(r"(?<![^\s(){};,@\"«»])[^\s(){}.;,@\"«»]+(?!\.[A-Za-z])")

# Lemmas that the scripts spelled as the definition is to be spelled that they speak of, each with the crates that have it.
GIVE_WAY = {
    "is_state": ["rules_typed"],
    "access_of": ["rules_typed"],
    "row_from": ["effect_fresh"],
    "set_known": ["rules_legacy", "rules_typed", "list_row"],
    "one_by_one": ["rules_runs"],
    "taken_next": ["rules_runs"],
}
# A name of the library, and one of a proof, that a constructor is to be spelled like.
LOCALLY = {
    ("rules_terminal/proofs/Built.antt", "take_at"): "first_part",
    ("rules_interface/proofs/CReplay.antt", "take_at"): "first_part",
    ("rules_queue/proofs/QueueExact.antt", "same_tables"): "alike",
}


def files():
    for folder, dirs, names in os.walk(ROOT):
        dirs[:] = sorted(d for d in dirs if d != "out")
        for name in sorted(names):
            if name.endswith((".antt", ".rt")):
                yield os.path.join(folder, name)


def read(path):
    with open(path, encoding="utf-8") as f:
        return f.read()


def write(path, text):
    with open(path, "w", encoding="utf-8") as f:
        f.write(text)


def in_snake_case(name):
    return re.sub(r"(?<=[a-z0-9])[A-Z]", lambda m: "_" + m[0].lower(), name).replace("-", "_")


def word(name):
    return re.compile(r"(?<![\w'-])" + re.escape(name) + r"(?![\w'-])")


def table():
    declared, bare = collections.defaultdict(set), {}
    for path in files():
        if path.endswith(".antt"):
            text = COMMENT.sub("", read(path))
            bare[path] = set(BARE.findall(text))
            for name in DECLARED.findall(text):
                declared[name].add(path)
    rows = {}
    for name in declared:
        new = in_snake_case(name)
        if new != name and re.fullmatch(r"[a-z][a-z0-9_]*'*[₀-₉]*", new):
            rows[name] = new
    together = collections.defaultdict(set)
    for name, new in rows.items():
        together[new].add(name)
    for name, new in sorted(rows.items()):
        if "-" not in name:
            continue
        if len(together[new]) > 1 or any(name in words and new in words for words in bare.values()):
            rows[name] = new + "_lem"
    return rows


def give_way():
    for path in files():
        crate = path.split(os.sep)[1]
        text = was = read(path)
        for name, crates in GIVE_WAY.items():
            if crate in crates or any(f"Rattle.{it}." in text for it in crates):
                text = word(name).sub(name + "_lem", text) if path.endswith(".antt") else text
        for (where, name), new in LOCALLY.items():
            if path.endswith(where):
                text = word(name).sub(new, text)
                text = re.sub(rf"(use [^\n]*[{{ ,]){new}([,}}])", rf"\1{name} as {new}\2", text)
        if text != was:
            write(path, text)


def rename_contracts():
    for crate in ("rows", "rules"):
        for end in ("Contracts.antt", "Contracts"):
            old = os.path.join(ROOT, crate, "specs", end)
            if os.path.exists(old):
                os.rename(old, old.replace("Contracts", "Promises"))
    for path in files():
        text = was = read(path)
        text = re.sub(r"\b(Rattle\.(?:rows|rules)\.specs\.)Contracts\b", r"\1Promises", text)
        if re.search(r"crates/(rows|rules)/specs/", path):
            text = re.sub(r"(?m)^(pub mod |mod )Contracts\b", r"\1Promises", text)
        if text != was:
            write(path, text)


def main():
    if "--rest" in sys.argv:
        for old, new in sorted(table().items()):
            print(old, new, sep="\t")
        return 0
    rename_contracts()
    give_way()
    rows = table()
    with tempfile.NamedTemporaryFile("w", suffix=".tsv", delete=False) as f:
        f.writelines(f"{old}\t{new}\n" for old, new in sorted(rows.items()))
    r = subprocess.run([sys.executable, SNAKE, "--table", f.name, "--only", "antt,rt", ROOT])
    os.unlink(f.name)
    return r.returncode


if __name__ == "__main__":
    raise SystemExit(main())
