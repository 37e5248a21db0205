"""A journal of the example terminal, read without the terminal's code: the chain, and each answer by the library again.

    tests/journal.py LIBRARY FILE..     LIBRARY is the archive as a shared object; FILE.. the journal's files in order
    tests/journal.py --chain FILE..     the chain alone

Prints how many lines of each kind there are, and with LIBRARY the SHA-256 of the tables at the end. Exit status 1: a line is wrong."""

import collections
import ctypes
import hashlib
import re
import sys

FIELDS = {
    "begin": 3,
    "library": 4,
    "started": 3,
    "tables": 2,
    "handed-in": 3,
    "taken": 4,
    "judged": 4,
    "cleared": 0,
    "stores": 1,
    "turned-away": 3,
    "left-out": 2,
    "torn": 1,
    "stopped": 0,
    "end": 1,
}
REASONS = {"new", "first", "same", "unstored", "other", "damaged"}
TIME = re.compile(r"\d{4}-\d\d-\d\dT\d\d:\d\d:\d\d\.\d{3}Z")
# bytes of the tables' five arrays, and of what waits
PARTS = [4, 16, 64, 936, 1152]
WAITING = 6504
# more numbers than the library says of a record
ROOM = 64


class Wrong(Exception):
    pass


def must(condition, words):
    if not condition:
        raise Wrong(words)


def read(names):
    """Gives each line's place, clock, kind and fields; its form and its chain are right."""
    before, number, part, ended = None, None, None, True
    for name in names:
        text = open(name, "rb").read()
        must(text.endswith(b"\n"), f"{name} does not end with a line")
        for i, line in enumerate(text.decode("ascii").split("\n")[:-1], 1):
            place = f"{name}:{i}"
            must(len(line) < 32768 and line.isprintable(), f"{place}: its bytes")
            words = line.split(" ")
            must(all(words) and len(words) > 4, f"{place}: a field is missing")
            kind, fields, chain = words[3], words[4:-1], words[-1]
            must(FIELDS.get(kind) == len(fields), f"{place}: {kind} has {len(fields)} fields")
            must(TIME.fullmatch(words[1]), f"{place}: the time {words[1]}")
            must((words[2] != "-") == (kind in ("taken", "judged")), f"{place}: the clock {words[2]}")
            must((kind == "begin") == (i == 1), f"{place}: begin")
            must((kind == "begin") or not ended, f"{place}: a line after the end")
            if kind == "begin":
                must(fields[0] == "journal-1", f"{place}: {fields[0]}")
                must(
                    part is None or (fields[1] == str(part + 1) and fields[2] == before and ended),
                    f"{place}: goes on elsewhere",
                )
                must(
                    part is not None or fields[1] != "1" or fields[2] == "0" * 64,
                    f"{place}: the first has one before it",
                )
                before, part = fields[2], int(fields[1])
                number = int(words[0]) - 1 if number is None else number
            number += 1
            must(words[0] == str(number), f"{place}: number {words[0]} and not {number}")
            own = f"{before} {line[:-65]}".encode()
            must(hashlib.sha256(own).hexdigest() == chain, f"{place}: does not fit the chain")
            before, ended = chain, kind == "end"
            must(kind != "end" or fields[0] == str(part), f"{place}: the end of {fields}")
            yield place, words[2], kind, fields


def whole(digits, length):
    given = bytes.fromhex(digits)
    must(len(given) <= length and (len(given) == 1 or given[-1] != 0), "bytes that are too many, or zeros at their end")
    return given + bytes(length - len(given))


class Terminal:
    """The library's terminal, by the archive's own functions."""

    def __init__(self, library):
        self.library = ctypes.CDLL(library)
        self.parts = [ctypes.create_string_buffer(n) for n in PARTS]
        self.queue = ctypes.create_string_buffer(WAITING)
        self.none = ctypes.create_string_buffer(1)

    def put(self, tables, waiting):
        at = 0
        for part, length in zip(self.parts, PARTS):
            part.raw = tables[at : at + length]
            at += length
        self.queue.raw = waiting

    def tables(self):
        return b"".join(part.raw for part in self.parts)

    def arguments(self):
        zero = ctypes.c_uint64(0)
        return [*self.parts, self.queue, self.none, zero, self.none, zero]

    def clear(self):
        self.library.tillerclover_clear_at(*self.arguments())

    def hand_in(self, record):
        said = (ctypes.c_uint64 * ROOM)()
        self.library.tillerclover_hand_in_at(*self.parts, self.queue, record, ctypes.c_uint64(len(record)), said)
        return said[0]

    def take(self, clock, capacity):
        said, length = (ctypes.c_uint64 * ROOM)(), ctypes.c_uint64(0)
        reply, record = ctypes.create_string_buffer(capacity), ctypes.create_string_buffer(256)
        self.library.tillerclover_take_at(
            *self.arguments(),
            ctypes.c_uint32(clock),
            reply,
            ctypes.c_uint64(capacity),
            said,
            ctypes.byref(length),
            record,
        )
        return record.raw[: length.value], said[0], said[1]


def replay(lines, terminal):
    capacity, known = 0, False
    for place, clock, kind, fields in lines:
        if kind == "library":
            capacity = int(fields[1])
            must(fields[2:] == ["-", "-"], f"{place}: default rows, which the example terminal has not")
        elif kind in ("started", "tables"):
            tables, waiting = whole(fields[-2], sum(PARTS)), whole(fields[-1], WAITING)
            must(kind == "tables" or fields[0] in REASONS, f"{place}: {fields[0]}")
            same = terminal.tables() == tables
            must(not known or kind == "started" or (same and terminal.queue.raw == waiting), f"{place}: other tables")
            must(not known or fields[0] != "same" or same, f"{place}: not the same tables")
            terminal.put(tables, waiting)
            known = True
        elif kind == "handed-in":
            record = bytes.fromhex(fields[1])
            must(int.from_bytes(record[2:4], "big") == int(fields[0]), f"{place}: the sender")
            answer = terminal.hand_in(record)
            must(answer == int(fields[2]), f"{place}: answered {fields[2]}, and the library says {answer}")
        elif kind == "taken":
            record, answer, permission = terminal.take(int(clock), capacity)
            must(record.hex() == fields[1], f"{place}: took {fields[1]}, and the library {record.hex()}")
            must(int.from_bytes(record[2:4], "big") == int(fields[0]), f"{place}: the sender")
            must(
                [str(answer), str(permission)] == fields[2:],
                f"{place}: {fields[2:]}, and the library says {answer} {permission}",
            )
        elif kind == "cleared":
            terminal.clear()
        elif kind == "stores":
            must(hashlib.sha256(terminal.tables()).hexdigest() == fields[0], f"{place}: other tables are stored")
        elif kind == "left-out":
            must(terminal.queue.raw[0] == 0, f"{place}: a record waits")
            terminal.queue.raw = whole(fields[1], WAITING)
        yield kind


def main(library, *names):
    lines = read(names)
    try:
        if library == "--chain":
            counts = collections.Counter(line[2] for line in lines)
        else:
            terminal = Terminal(library)
            counts = collections.Counter(replay(lines, terminal))
    except Wrong as wrong:
        print(wrong)
        return 1
    print(", ".join(f"{count} {kind}" for kind, count in sorted(counts.items())))
    if library != "--chain":
        print(hashlib.sha256(terminal.tables()).hexdigest())
    return 0


if __name__ == "__main__":
    sys.exit(main(*sys.argv[1:]))
