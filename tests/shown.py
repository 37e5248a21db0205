#!/usr/bin/env python3
"""Runs the commands that a document shows, and compares what they print with what it shows.

    tests/shown.py PROGRAM FILE..            compares; exit status 1: something is not as it is shown
    tests/shown.py --write PROGRAM FILE..    writes what the commands print into the documents

A command is an indented line that begins with '$ '; what it prints stands below it. The commands of a file run one after
the other in a folder of their own, with the files of examples/tool; those of pages joined as A+B in one folder. A SHA-256 is shown as (64 digits), and the toolchain
as (what rt version says), a process as (its number).
"""
import difflib
import os
import re
import shutil
import subprocess
import sys
import tempfile

INDENT = "    "


def run(command, folder, environment):
    done = subprocess.run(
        ["bash", "-c", command],
        cwd=folder,
        env=environment,
        stdin=subprocess.DEVNULL,
        stdout=subprocess.PIPE,
        stderr=subprocess.STDOUT,
    )
    text = re.sub(r"\b[0-9a-f]{64}\b", "(64 digits)", done.stdout.decode("utf-8", "replace"))
    text = re.sub(r"\bprocess \d+", "process (its number)", text)
    text = re.sub(r"(?m)^(toolchain +).*$", r"\1(what rt version says)", text)
    return [(INDENT + line).rstrip() for line in text.removesuffix("\n").split("\n")] if text else []


def shown(lines, folder, environment):
    """The lines of a document with what its commands print today."""
    result = []
    place = 0
    while place < len(lines):
        line = lines[place]
        result.append(line)
        place += 1
        if not line.startswith(INDENT + "$ "):
            continue
        end = place
        while (
            end < len(lines)
            and not lines[end].startswith(INDENT + "$ ")
            and (lines[end].startswith(INDENT) or not lines[end])
        ):
            end += 1
        while end > place and not lines[end - 1]:
            end -= 1
        result.extend(run(line[len(INDENT) + 2 :], folder, environment))
        place = end
    return result


def page(name, folder, environment, write):
    """Compares or writes one page; whether it is not as it is shown."""
    with open(name, encoding="utf-8") as file:
        lines = file.read().split("\n")
    found = shown(lines, folder, environment)
    if not any(line.startswith(INDENT + "$ tillerclover ") for line in lines):
        print(f"{name}: shows no command")
        return True
    if write:
        with open(name, "w", encoding="utf-8") as file:
            file.write("\n".join(found))
    elif found != lines:
        print("\n".join(list(difflib.unified_diff(lines, found, name, "what is printed", lineterm="", n=1))[:40]))
        return True
    return False


def main():
    arguments = sys.argv[1:]
    write = arguments[0] == "--write"
    program, *files = arguments[write:]
    failed = False
    for joined in files:
        with tempfile.TemporaryDirectory() as folder:
            commands, yard = os.path.join(folder, "bin"), os.path.join(folder, "yard")
            os.mkdir(commands)
            shutil.copytree(os.path.join(os.path.dirname(os.path.abspath(__file__)), "../examples/tool"), yard)
            shutil.copy(program, os.path.join(commands, "tillerclover"))
            environment = {"PATH": commands + ":/usr/bin:/bin", "HOME": folder, "LC_ALL": "C.UTF-8"}
            for name in joined.split("+"):
                failed |= page(name, yard, environment, write)
    return 1 if failed else 0


sys.exit(main())
