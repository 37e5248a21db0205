#!/usr/bin/env python3
"""Writes journals as docs/JOURNAL.md has them, for the tests of the command.

    tests/write_journal.py write PROGRAM WORDS [TABLES]    what becomes of the words, judged by the command tillerclover
    tests/write_journal.py chain                           lines on standard input, without their chains or with others: numbered and chained

A line of words begins with a time, 2026-11-18T06:12:07.500Z, and then says what happens: started (with what TABLES hold, or new
tables), hand-in RECORD, take, judge RECORD, cleared, stopped, next (the next file begins), or any other fields of an entry as they
are. What changes the tables is followed by a line that stores them.
"""
import hashlib
import json
import os
import re
import subprocess
import sys
import tempfile
from datetime import datetime, timezone

CAPACITY, TABLES = 1168, 2172


def identity():
    """What the library says of itself, by the header."""
    with open(
        os.path.join(os.path.dirname(os.path.abspath(__file__)), "../include/tillerclover.h"), encoding="utf-8"
    ) as file:
        header = file.read()
    words = ["FORMAT", "INTERFACE_MAJOR", "INTERFACE_MINOR"]
    format, major, minor = [int(re.search(rf"#define TILLERCLOVER_{word} (\d+)", header).group(1)) for word in words]
    return 1_000_000 * format + 1_000 * major + minor


class Journal:
    def __init__(self):
        self.number, self.chain, self.lines = 0, "0" * 64, []

    def line(self, text):
        self.number += 1
        text = f"{self.number} {text}"
        self.chain = hashlib.sha256(f"{self.chain} {text}".encode()).hexdigest()
        self.lines.append(f"{text} {self.chain}\n")


class Terminal(Journal):
    def __init__(self, program, tables):
        super().__init__()
        self.program, self.file, self.of = program, "terminal", 0
        self.run("new", self.file, "--form", "memory")
        if tables:
            image = read(tables)
            write(self.file, image[8:-4] if len(image) == 8688 else image)

    def run(self, *words):
        done = subprocess.run([self.program, "--json", *words], capture_output=True, text=True)
        if done.returncode > 1:
            sys.exit(f"journal: {words}: {done.stderr}")
        return json.loads(done.stdout)

    def memory(self):
        image = read(self.file)
        return " ".join((part.rstrip(b"\0") or b"\0").hex() for part in (image[:TABLES], image[TABLES:]))

    def begin(self, time):
        self.of += 1
        self.line(f"{time} - begin journal-1 {self.of} {self.chain}")
        self.library(time)

    def library(self, time):
        self.line(f"{time} - library {identity()} {CAPACITY} - -")

    def judged(self, time, act, words):
        clock = int(datetime.strptime(time[:19] + "Z", "%Y-%m-%dT%H:%M:%SZ").replace(tzinfo=timezone.utc).timestamp())
        at = [] if act == "hand-in" else ["--clock", str(clock)]
        said = self.run(act, self.file, *at, "--no-backup", "--force", *words)["records"][0]
        record = said["record"]
        if act == "take" and not record:
            return
        sender = int(record[4:8], 16) if len(record) >= 8 else 0
        outcome = f"{sender} {record or '-'} {said['answer']['number']}"
        if act == "hand-in":
            self.line(f"{time} - handed-in {outcome}")
            return
        kind = "taken" if act == "take" else "judged"
        self.line(f"{time} {clock} {kind} {outcome} {said['permission']['number']}")

    def step(self, time, act, rest):
        before = read(self.file)[:TABLES]
        if act in ("hand-in", "judge", "take"):
            self.judged(time, act, [rest] if rest else [])
        elif act == "cleared":
            self.run("clear", self.file)
            self.line(f"{time} - cleared")
        elif act == "started":
            self.begin(time) if self.of == 0 else self.library(time)
            self.line(f"{time} - started {rest} {self.memory()}")
        elif act == "next":
            self.line(f"{time} - end {self.of}")
            self.begin(time)
            self.line(f"{time} - tables {self.memory()}")
        else:
            self.line(f"{time} - {act} {rest}".rstrip())
        after = read(self.file)[:TABLES]
        if after != before:
            self.line(f"{time} - stores {hashlib.sha256(after).hexdigest()}")


def read(path):
    with open(path, "rb") as file:
        return file.read()


def write(path, data):
    with open(path, "wb") as file:
        file.write(data)


def of_words(program, lines, tables=None):
    """The journal of such lines. It is made in a folder of its own."""
    program, tables, here = os.path.abspath(program), tables and os.path.abspath(tables), os.getcwd()
    with tempfile.TemporaryDirectory() as folder:
        os.chdir(folder)
        terminal = Terminal(program, tables)
        for line in lines:
            if line and not line.startswith("#"):
                time, act, rest = (line.split(" ", 2) + [""])[:3]
                terminal.step(time, act, rest)
        os.chdir(here)
    return "".join(terminal.lines)


def again():
    journal = Journal()
    for line in sys.stdin.read().split("\n"):
        if line:
            text = re.sub(r" [0-9a-f]{64}$", "", line) if not re.search(r" (begin|stores) \S+( \S+)*$", line) else line
            text = re.sub(r"( (?:begin \S+ \d+|stores) [0-9a-f]{64}) [0-9a-f]{64}$", r"\1", text)
            journal.line(text.split(" ", 1)[1])
    return "".join(journal.lines)


def main(what, program=None, words=None, tables=None):
    if what == "write":
        return of_words(program, read(words).decode().split("\n"), tables)
    return again()


if __name__ == "__main__":
    sys.stdout.write(main(*sys.argv[1:]))
