#!/usr/bin/env python3
"""Questions of the page at random, with what the command says to them, and the comparison.

    questions.py make TOOL MANY SEED FILE.json       so many questions, in a file with the tables that they are about
    questions.py compare FILE.json ANSWERS.json      what the page's module or its crate answered; exit status 1: something differs

Reports are compared whole, as JSON or as text, errors by their words, and judged or loaded tables byte by byte.
"""
import json
import os
import random
import subprocess
import sys
import tempfile

sys.path.insert(0, os.path.join(os.path.dirname(os.path.abspath(__file__)), ".."))
import write_journal  # noqa: E402

RESOURCES = "/oic/sec/doxm /oic/sec/pstat /oic/sec/cred /oic/sec/acl2 /oic/sec/roles /weight /tare /zero /ticket /lamp /calib /display /yard".split()
VERBS = "CREATE RETRIEVE UPDATE DELETE OBSERVE".split()
UUIDS = ["%08x-1111-2222-3333-%012x" % (i * 0x1357, i) for i in range(1, 9)]
BASE = 1782864000  # 2026-07-01


class Maker:
    def __init__(self, tool, seed):
        self.tool, self.chance = tool, random.Random(seed)
        self.files, self.questions = [], []

    # ---- what is drawn

    def time(self):
        return BASE + self.chance.randrange(-100, 100) * 86400

    def role(self):
        return self.chance.choice(["1", "2", "7@2", "3@1"])

    def ace(self, number):
        r = self.chance
        subject = r.choice([r.choice(UUIDS), r.choice(UUIDS), "role:" + self.role(), "auth-crypt", "anon-clear"])
        resources = (
            ",".join(r.sample(RESOURCES, r.randrange(0, 5)) + r.sample(["+", "-", "*"], r.choice([0, 0, 0, 1, 2])))
            or "*"
        )
        letters = "".join(letter for letter in "CRUDN" if r.random() < 0.5) or "R"
        words = f"number={number} subject={subject} permission={letters} resources={resources}"
        words += f" first={self.time()}" if r.random() < 0.4 else ""
        return words + (f" last={self.time()}" if r.random() < 0.4 else "")

    def record(self):
        r = self.chance
        verb, resource, sender = (
            r.choice(VERBS),
            r.choice(RESOURCES),
            r.choice(["", "", *(f" as {n}" for n in range(4, 14))]),
        )
        if r.random() < 0.1:
            return "".join(r.choice("0123456789abcdef") for _ in range(2 * r.randrange(1, 40)))
        body = ""
        if verb == "UPDATE":
            body = {
                "/oic/sec/doxm": f" owner={r.choice(UUIDS + ['none'])}",
                "/oic/sec/pstat": f" state={r.choice(['RESET', 'RFOTM', 'RFPRO', 'RFNOP', 'SRESET'])}",
                "/oic/sec/cred": f" number={r.randrange(1, 30)} subject={r.choice(UUIDS)} role={self.role()} type={r.choice([0, 1, 2, 3])}",
                "/oic/sec/acl2": " " + self.ace(r.randrange(1, 40)),
                "/oic/sec/roles": f" role={self.role()} last={self.time()}",
            }.get(resource, r.choice(["", " text:lorry", " hex:00ff"]))
            if resource in RESOURCES[:4] and r.random() < 0.2:
                body = f" row-owner={r.choice(UUIDS + ['none'])}"
        if verb == "DELETE" and resource in RESOURCES[2:4]:
            body = r.choice([" all", f" number={r.randrange(1, 30)}"])
        if verb in ("RETRIEVE", "OBSERVE") and r.random() < 0.05:
            body = " hex:01"
        return f"{verb} {resource}{sender}{body}"

    def setup(self):
        r = self.chance
        some = UUIDS[: r.randrange(1, 9)]
        lines = [
            f"UPDATE /oic/sec/cred number={5 + i} subject={uuid}" + (f" role={self.role()}" if r.random() < 0.4 else "")
            for i, uuid in enumerate(some)
        ]
        lines += [f"UPDATE /oic/sec/acl2 {self.ace(n)}" for n in range(1, 1 + r.choice([0, 3, 6, 12, 32]))]
        lines += [f"UPDATE {x} row-owner={r.choice(UUIDS)}" for x in RESOURCES[:4] if r.random() < 0.15]
        if r.random() < 0.9:
            lines.append(f"UPDATE /oic/sec/doxm owner={UUIDS[0]}")
            lines += [
                f"UPDATE /oic/sec/pstat as 5 state={state}"
                for state in ["RFPRO", "RFNOP"][: r.choice([0, 1, 2, 2, 2, 2])]
            ]
        lines += [
            f"UPDATE /oic/sec/roles as {5 + r.randrange(8)} role={self.role()} last={self.time()}"
            for _ in range(r.randrange(3))
        ]
        return lines + [f"hand-in {self.record()}" for _ in range(r.randrange(4))]

    def senders(self):
        return ",".join(map(str, self.chance.sample(["clear", *range(5, 13)], self.chance.randrange(1, 4))))

    # ---- what the command says

    def run(self, *words):
        done = subprocess.run([self.tool, *words], capture_output=True, text=True)
        return done.returncode, done.stdout, done.stderr

    def add(self, question, command):
        form = self.chance.choice(["json", "text"])
        code, out, errors = self.run(*(["--json"] if form == "json" else []), *command)
        entry = {"question": question, "file": len(self.files) - 1, "form": form, "code": code, "error": errors.strip()}
        if command[:2] == ["journal", "show"] and form == "json":
            out = json.dumps([json.loads(line) for line in out.splitlines()])
        entry["expected"] = None if code >= 2 else json.loads(out) if form == "json" else out
        self.questions.append(entry)
        return entry

    def tables(self):
        """A file of tables at random; some are spoilt."""
        name = "yard.tables"
        if os.path.exists(name):
            os.remove(name)
        self.run("new", name, "--form", self.chance.choice(["terminal", "terminal", "memory"]))
        write("lines", "\n".join(self.setup()).encode())
        self.run("judge", name, "--clock", str(BASE), "--no-backup", "@lines")
        data = bytearray(read(name))
        if self.chance.random() < 0.06 and len(data) == 8676:
            data[self.chance.randrange(2172)] ^= 1 << self.chance.randrange(8)
            write(name, data)
        self.files.append(data.hex())
        return name, bytes(data)

    def ask(self, name, data):
        r, clock = self.chance, self.time()
        common, at = {"name": name, "clock": clock}, ["--clock", str(clock)]
        kind = r.choice(
            ["why"] * 6
            + ["when"] * 3
            + ["cell"] * 2
            + ["plan"] * 3
            + ["who"] * 3
            + "rights show isolated isolated yards judge judge judge text load".split()
        )
        if kind == "why":
            words = self.record()
            self.add({**common, "ask": "why", "record": words}, ["why", name, *at, words])
        elif kind == "when":
            words = self.record()
            entry = self.add({**common, "ask": "when", "record": words}, ["why", name, *at, words])
            entry["form"] = "when"
            seconds = [0, self.time(), self.time() - 1, 4294967295]
            entry["at"] = [
                [second, self.run("--json", "why", name, "--clock", str(second), words)[1]] for second in seconds
            ]
        elif kind == "cell":
            number, resource = r.choice([None, *range(5, 9)]), r.choice(RESOURCES)
            sender = {"kind": "clear"} if number is None else {"kind": "credential", "number": number}
            words = f"UPDATE {resource}" + (f" as {number}" if number else "")
            entry = self.add({**common, "ask": "cell", "of": sender, "resource": resource}, ["why", name, *at, words])
            entry["form"] = "cell"
            entry["expected"] = json.loads(self.run("--json", "why", name, *at, words)[1] or "null")
        elif kind == "plan":
            words = self.record()
            without, with_ = [r.randrange(1, 8) for _ in range(r.randrange(2))], [
                self.record() for _ in range(r.randrange(2))
            ]
            options = sum((["--without", str(n)] for n in without), []) + sum((["--with", w] for w in with_), [])
            self.add(
                {**common, "ask": "why", "record": words, "without": without, "with": with_},
                ["why", name, *at, *options, words],
            )
        elif kind == "who":
            verb, resource = r.choice(VERBS), r.choice(RESOURCES)
            self.add({**common, "ask": "who", "verb": verb, "resource": resource}, ["who", verb, resource, name, *at])
        elif kind in ("rights", "show"):
            zone = r.choice(["UTC", "Europe/Berlin", "-05:30"])
            self.add({**common, "ask": kind, "zone": zone}, [f"--tz={zone}", kind, name, *at])
        elif kind == "isolated":
            some = self.senders()
            self.add(
                {**common, "ask": "isolated", "senders": some, "absent": True}, ["isolated", name, some, "--absent"]
            )
        elif kind == "yards":
            five = r.sample(["clear", *range(5, 13)], 5)
            named = [f"a={five[0]},{five[1]}", f"b={five[2]}", f"c={five[3]},{five[4]}"][: r.randrange(1, 4)]
            self.add({**common, "ask": "yards", "yards": named, "absent": True}, ["yards", name, *named, "--absent"])
        elif kind == "text":
            seasons = r.random() < 0.5
            self.add(
                {**common, "ask": "list text", "seasons": seasons},
                ["list", "text", name, *(["--seasons"] if seasons else [])],
            )
        elif kind == "load":
            self.load(common, at, data)
        else:
            lines = "\n".join(
                r.choice([self.record(), self.record(), "hand-in " + self.record(), "take"])
                for _ in range(r.randrange(1, 6))
            )
            write("lines", lines.encode())
            write("copy.tables", data)
            entry = self.add(
                {**common, "name": "copy.tables", "ask": "judge", "lines": lines},
                ["judge", "copy.tables", *at, "--no-backup", "--force", "@lines"],
            )
            entry["after"] = read("copy.tables").hex()

    def journal(self, name):
        """Questions about a journal of records at random on these tables, with a byte changed in some."""
        r, lines = self.chance, ["2026-07-01T06:00:00.000Z started first"]
        for n in range(r.randrange(3, 12)):
            time = f"2026-07-01T06:{n:02}:00.{r.randrange(1000):03}Z"
            lines += [
                f"{time} {act}" for act in ["hand-in " + self.record(), "hand-in " + self.record(), "take", "take"]
            ]
            lines += [
                f"{time} {act}" for act in ["cleared", "turned-away 7 52400007 occupied", "stopped"] if r.random() < 0.1
            ]
        text = write_journal.of_words(self.tool, lines, name)
        data = bytearray(text.encode())
        if r.random() < 0.3:
            data[r.randrange(len(data))] = r.randrange(256)
        write("yard.journal", data)
        self.files.append(data.hex())
        many, common = text.count("\n"), {"name": "yard.journal"}
        for line in r.sample(range(1, many + 2), 6):
            self.add({**common, "ask": "journal why", "line": line}, ["journal", "why", "yard.journal", str(line)])
        self.add({**common, "ask": "journal check"}, ["journal", "check", "yard.journal"])
        for sender, changes in [(None, False), (r.randrange(14), False), (None, True)]:
            options = (["--sender", str(sender)] if sender is not None else []) + (["--changes"] if changes else [])
            entry = self.add(
                {**common, "ask": "journal show", "changes": changes}, ["journal", "show", "yard.journal", *options]
            )
            if sender is not None:
                entry["question"]["sender"] = sender

    def load(self, common, at, data):
        r = self.chance
        write("rows", "\n".join(self.ace(n) for n in range(1, 1 + r.randrange(1, 5))).encode())
        write("copy.tables", data)
        if self.run("list", "make", "rows", "made.list", "--force")[0] != 0:
            return
        sender, replace = r.choice([5, 5, 6]), r.random() < 0.5
        command = [
            "list",
            "load",
            "made.list",
            "copy.tables",
            "as",
            str(sender),
            *at,
            "--no-backup",
            "--force",
            *(["--replace"] if replace else []),
        ]
        question = {
            **common,
            "name": "copy.tables",
            "ask": "list load",
            "list": read("made.list").hex(),
            "list_name": "made.list",
            "sender": sender,
            "replace": replace,
        }
        entry = self.add(question, command)
        entry["after"] = read("copy.tables").hex()


def read(path):
    with open(path, "rb") as file:
        return file.read()


def write(path, data):
    with open(path, "wb") as file:
        file.write(data)


def make(tool, many, seed, target):
    maker, target = Maker(os.path.abspath(tool), int(seed)), os.path.abspath(target)
    with tempfile.TemporaryDirectory() as folder:
        os.chdir(folder)
        while len(maker.questions) < int(many):
            tables = maker.tables()
            for _ in range(20):
                maker.ask(*tables)
            if len(tables[1]) == 8688:
                maker.journal(tables[0])
        os.chdir("/")
    questions = maker.questions[: int(many)]
    write(target, json.dumps({"files": maker.files, "questions": questions}).encode())
    print(
        f"{len(questions)} questions on {len(maker.files)} files, {sum(one['code'] == 1 for one in questions)} refused, {sum(one['code'] > 1 for one in questions)} errors"
    )


# ---- the comparison


def spans_agree(entry, answer):
    """What the command says at some seconds is what the spans have there."""
    spans = answer["json"]["spans"]
    ends = [0] + [span["last"] + 1 for span in spans]
    whole = ends[-1] == 1 << 32 and all(span["first"] == end for span, end in zip(spans, ends))

    def at(second):
        return next(span["answer"] for span in spans if span["first"] <= second <= span["last"])

    return whole and all(json.loads(said)["answer"] == at(second) for second, said in entry["at"])


def cell_agrees(entry, answer):
    """Of the verb that the command was asked about; a DELETE of rows would need a word more."""
    if not entry["expected"]:
        return True
    if answer["json"].get("sound") is False:
        return not answer["well"]
    return next(one["why"] for one in answer["json"]["verbs"] if one["verb"] == "UPDATE") == entry["expected"]


def agrees(entry, answer):
    question, expected = entry["question"], entry["expected"]
    if entry["form"] == "cell":
        missing = "error" in answer and "no credential row" in answer["error"]["text"]
        return missing or ("error" in answer and entry["code"] > 1) or ("json" in answer and cell_agrees(entry, answer))
    if entry["code"] > 1:
        return "error" in answer and answer["error"]["message"] in entry["error"]
    if "error" in answer:
        return False
    if entry["form"] == "when":
        return answer["well"] == (entry["code"] == 0) and spans_agree(entry, answer)
    if answer["well"] != (entry["code"] == 0):
        return False
    if "after" in entry and answer["file"] and answer["bytes"] != entry["after"]:
        return False
    if question["ask"] == "judge":
        if entry["form"] == "text":
            return expected.startswith(answer["text"])
        return all(answer["json"][key] == expected[key] for key in ("records", "changed", "clock", "notes"))
    if question["ask"] == "journal show" and entry["form"] == "json":
        return answer["json"]["entries"] == [{key: one[key] for key in one if key != "file"} for one in expected]
    if question["ask"] == "list load" and entry["form"] == "text":
        return expected.startswith(answer["text"])
    return (answer["json"] if entry["form"] == "json" else answer["text"]) == expected


def compare(questions, answers):
    questions, answers = json.loads(read(questions))["questions"], json.loads(read(answers))
    different = [(entry, answer) for entry, answer in zip(questions, answers) if not agrees(entry, answer)]
    for entry, answer in different[:3]:
        print("DIFFERENT", json.dumps(entry)[:1500], "\n  answered", json.dumps(answer)[:900])
    print(f"questions: {len(questions) - len(different)} the same, {len(different)} different")
    return bool(different) or len(questions) != len(answers)


if __name__ == "__main__":
    sys.exit({"make": make, "compare": compare}[sys.argv[1]](*sys.argv[2:]))
