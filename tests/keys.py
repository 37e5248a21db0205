#!/usr/bin/env python3
"""Holds the JSON of the command tillerclover to the table of keys in a document.

    tests/keys.py PROGRAM DOCUMENT      in a folder with a file of tables 'a', which stays as it is

Exit status 1: a line for each key that is there and not named, or named and not there, and for each object of the table
that no command gave.
"""
import json
import os
import re
import subprocess
import sys

ROW = "number=9 subject=role:7@2 permission=R resources=/zero last=2026-09-30"
MOVE = "UPDATE /oic/sec/pstat as 5 state=RFPRO"
ROLE = "UPDATE /oic/sec/roles as 8 role=7@2"

# the object of the table, the arguments, what standard input holds
COMMANDS = [
    ("new", ["new", "b", "--force"], ""),
    ("judge", ["judge", "b", "UPDATE /oic/sec/cred number=5 subject=" + "1" * 32, "RETRIEVE /oic/sec/cred"], ""),
    ("hand-in", ["hand-in", "b", "RETRIEVE /weight"], ""),
    ("fresh", ["fresh", "b", "missing"], ""),
    ("clear", ["clear", "e", "missing"], ""),
    ("defaults creds", ["defaults", "creds", "-", "rows0", "--force"], "number=9 subject=" + "1" * 32),
    ("defaults aces", ["defaults", "aces", "-", "rows0", "--force"], ROW),
    ("many", ["show", "b", "b"], ""),
    ("many", ["diff", "b", "b", "c"], ""),
    ("many", ["list", "check", "old", "missing"], ""),
    ("show", ["show", "b"], ""),
    ("take", ["take", "b", "2"], ""),
    ("undo", ["undo", "b"], ""),
    ("diff", ["diff", "a", "b"], ""),
    ("diff", ["diff", "a", "c"], ""),
    ("show", ["show", "a"], ""),
    ("show", ["show", "bad"], ""),
    ("show", ["show", "c"], ""),
    ("seasons", ["seasons", "a"], ""),
    ("record", ["record", "UPDATE /tare as 7"], ""),
    ("decode", ["decode", "52400007"], ""),
    ("list text --csv", ["list", "text", "a", "--csv"], ""),
    ("--version", ["--version"], ""),
    ("who", ["who", "UPDATE", "/ticket", "a"], ""),
    ("who", ["who", "DELETE", "/oic/sec/doxm", "a"], ""),
    ("rights", ["rights", "a"], ""),
    ("rights --html", ["rights", "a", "--html", "page", "--force"], ""),
    ("page", ["page", "a", "-o", "enclosed", "--page", "release", "--force"], ""),
    ("isolated", ["isolated", "a", "7,8"], ""),
    ("isolated", ["isolated", "a", "clear,77,5", "--absent"], ""),
    ("isolated", ["isolated", "d", "77", "--absent"], ""),
    ("yards", ["yards", "a", "north=7", "south=8"], ""),
    ("yards", ["yards", "d", "north=7"], ""),
    ("why", ["why", "a", "UPDATE /tare as 7"], ""),
    ("why", ["why", "a", "UPDATE /tare as 7", "--without", "3"], ""),
    ("why", ["why", "a", "RETRIEVE /oic/sec/acl2 as 5", "--without", "99"], ""),
    ("why", ["why", "bad", "UPDATE /tare as 7"], ""),
    ("list make", ["list", "make", "-", "rows", "--force"], ROW),
    ("list make", ["list", "make", "-", "rows2", "--force"], ROW + "\n" + ROW),
    ("list check", ["list", "check", "rows"], ""),
    ("list load", ["list", "load", "rows", "c", "as", "5"], ""),
    ("list load", ["list", "load", "rows", "a", "as", "5"], ""),
    ("list text", ["list", "text", "rows"], ""),
    ("list convert", ["list", "convert", "old", "converted", "--force"], ""),
    ("list convert", ["list", "convert", "rows", "converted", "--force"], ""),
    ("run", ["run", "--lines", "-"], "RETRIEVE /weight\n"),
    ("test", ["test", "t.toml"], ""),
    ("journal check", ["journal", "check", "good.journal", "bad.journal"], ""),
    ("journal show", ["journal", "show", "good.journal", "--sender", "0", "--changes"], ""),
    ("journal show", ["journal", "show", "one.journal"], ""),
    ("journal why", ["journal", "why", "good.journal", "9"], ""),
    ("journal why", ["journal", "why", "good.journal", "11"], ""),
    ("journal tables", ["journal", "tables", "good.journal", "--at", "2026-11-18T06:10", "-o", "f", "--force"], ""),
    ("completions", ["completions", "bash"], ""),
    ("man", ["man"], ""),
    ("error", ["show", "missing"], ""),
]

faults = []
visited = set()


def schema(path):
    """The keys of each object: name to (optional, shape, object)."""
    objects = {}
    with open(path, encoding="utf-8") as file:
        table = file.read().split("| object | keys |", 1)[1].split("\n\n", 1)[0]
    for line in table.strip().split("\n")[1:]:
        left, right = [cell.strip() for cell in line.strip("|").split("|")]
        keys = {}
        for token in re.findall(r"`([^`]+)`", right):
            name, _, kind = token.partition(": ")
            shape = kind[0] if kind[:1] in ("[", "{") else ("=" if kind else "")
            keys[name.rstrip("?")] = (name.endswith("?"), shape, kind.strip("[]{}"))
        for name in re.findall(r"`([^`]+)`", left.split(", in")[0]) or [left.split(", in")[0]]:
            objects[name] = keys
    return objects


def check(objects, name, value, where):
    if value is None:
        return
    visited.add(name)
    keys = objects[name]
    if not isinstance(value, dict):
        faults.append(f"{where}: no object {name}: {value!r}")
        return
    for key in value.keys() - keys.keys():
        faults.append(f"{where}: the key {key} of {name} is not named")
    for key, (optional, shape, kind) in keys.items():
        if key not in value:
            if not optional:
                faults.append(f"{where}: the key {key} of {name} is missing")
            continue
        inner = value[key]
        items = inner if shape == "[" else list(inner.values()) if shape == "{" else [inner] if shape else []
        for item in items:
            check(objects, kind, item, f"{where}.{key}")


def prepare(program, document):
    with open("release", "w", encoding="utf-8") as file:
        file.write('<script type="text/plain" id="tables"></script>')
    with open("a", "rb") as file:
        tables = file.read()
    with open("c", "wb") as file:
        file.write(tables)
    subprocess.run([program, "judge", "c", ROLE, MOVE, "--no-backup"], check=True, stdout=subprocess.DEVNULL)
    with open("d", "wb") as file:
        file.write(tables)
    loose = "UPDATE /oic/sec/acl2 as 5 number=9 subject=auth-crypt permission=U resources=/oic/sec/pstat"
    subprocess.run([program, "judge", "d", MOVE, loose, "--no-backup"], check=True, stdout=subprocess.DEVNULL)
    with open("bad", "wb") as file:
        file.write(b"\x09" + bytes(2171))
    with open("e", "wb") as file:
        file.write(tables)
    with open("old", "wb") as file:
        file.write(bytes(16) + b"\x10\x00\x80" + bytes(6))
    with open(os.path.join(os.path.dirname(document), "JOURNAL.md"), encoding="utf-8") as file:
        lines = re.findall(r"(?m)^    (\d+ 2026.* [0-9a-f]{64})$", file.read())
    for name, some in [("good", lines), ("bad", lines[:2] + lines[3:]), ("one", lines[4:5])]:
        with open(name + ".journal", "w", encoding="utf-8") as file:
            file.write("".join(line + "\n" for line in some))
    with open("t.toml", "w", encoding="utf-8") as file:
        file.write('tables = "a"\n[[expect]]\nrecord = "RETRIEVE /weight"\nanswer = 0\n')


def main():
    program, document = sys.argv[1], sys.argv[2]
    objects = schema(document)
    prepare(program, document)
    with open("a", "rb") as file:
        before = file.read()
    for name, arguments, text in COMMANDS:
        done = subprocess.run(
            [program, *arguments, "--json"], input=text.encode(), stdout=subprocess.PIPE, stderr=subprocess.PIPE
        )
        said = done.stderr if name == "error" else done.stdout
        try:
            value = json.loads(said)
        except ValueError:
            faults.append(f"{' '.join(arguments)}: no JSON: {said!r} {done.stderr!r}")
            continue
        check(objects, name, value["error"] if name == "error" else value, " ".join(arguments))
    faults.extend(f"no command gave an object {name}" for name in objects.keys() - visited)
    with open("a", "rb") as file:
        if file.read() != before:
            faults.append("the tables were changed")
    for fault in faults:
        print("keys:", fault)
    return 1 if faults else 0


sys.exit(main())
