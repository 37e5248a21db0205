#!/usr/bin/env python3
"""Turns proofs that walk a function's code by hand, proofs/F/Proof.antt, to the names that this Rattle makes.

usage: tools/walks.py NAME..    at the top, after tools/spelling.py: each crate NAME, whose lower crates are proved

Rattle itself says, for each function, how its goals, places and steps were called and how they are called now
(`rt check --generated FOLDER --old-names`). A file that is turned already is left as it is.
"""

import json
import os
import re
import subprocess
import sys
import tempfile

WORD = r"[^\s(){}.;,@\"«»]+"


def plain(name):
    """A label as the older spellings have it in common."""
    name = name.replace("-", "_").replace("·", "_").replace(".", "_")
    return re.sub(r"_lem$", "", name)


def names_of(crate):
    with tempfile.TemporaryDirectory() as d:
        folder = os.path.join(d, "names")
        r = subprocess.run(
            ["rt", "check", "--generated", folder, "--old-names"],
            cwd=os.path.join("crates", crate),
            capture_output=True,
            text=True,
        )
        path = os.path.join(folder, "names.json")
        if not os.path.exists(path):
            raise SystemExit(f"{crate}: no names: {r.stdout[-2000:]}{r.stderr[-500:]}")
        with open(path, encoding="utf-8") as f:
            return json.load(f)


def code_and_comments(text):
    return re.split(r"(?m)((?<![^\s(){}.;,@\"«»])--[^\n]*$)", text)


def now_behind(code):
    value = r"(?:\((?:[^()]|\([^()]*\))*\)|" + WORD + r")(?:\." + WORD + r")*"
    return re.sub(r"(?<![\w.'-])now[ \n]+(" + value + r")", r"\1.now", code)


def without_import(text, name):
    def line(m):
        names = [it.strip() for it in m[2].split(",")]
        if name not in names:
            return m[0]
        names.remove(name)
        return f"{m[1]}{{{', '.join(names)}}}" if names else "\0"

    text = re.sub(r"(?m)^((?:pub |unfoldable )*use [^\n{]*\.)\{([^}\n]*)\}", line, text)
    return re.sub(r"\0\n", "", text)


def anchored(text, it, where, said):
    """The text with each path from a place to a step as long as it is now: some steps before a call are no longer there."""
    names = it["places_by_name"]
    old_names = [place[0] for place in it["places"]]
    index = {old: i for i, old in enumerate(old_names)}
    parent = [index.get(place[1]) if place[1] else None for place in it["places"]]
    step = [place[2][1] for place in it["places"]]
    by_name = {name: i for i, name in enumerate(names)}
    asked = {"Need-" + need[1]: by_name.get(at[1]) for need, at in zip(it["needs"], it["asked_at"])}
    helpers = {
        m[1]: by_name.get(m[2])
        for m in re.finditer(
            r"(?m)^(?:pub )?(?:abbrev )?(" + WORD + r") : (?:\(c : )?tie\.(" + WORD + r")(?: invariant[^)→\n]*)?\)? →",
            text,
        )
    }

    def distance(a, b):
        n = 0
        while a is not None and a != b:
            a, n = parent[a], n + 1
        return n if a is not None else None

    def behind(place, k):
        for _ in range(k):
            place = parent[place] if place is not None else None
        return place

    def one(chunk):
        head = re.match(r"(?:abbrev |pub )*(" + WORD + r") : (?:\(c : )?tie\.(" + WORD + ")", chunk)
        if not head:
            return chunk
        place = asked.get(head[2], by_name.get(head[2]))
        if place is None:
            return chunk
        return paths(chunk, {"c": (place, "c")})

    def paths(chunk, known):
        def found(m):
            var, befores, label = m[1], m[2].count(".before"), m[3]
            if var not in known:
                return m[0]
            place, name = known[var]
            if label is None:
                return m[0]
            at = place
            target = None
            while at is not None:
                if step[at] == label or (parent[at] is None and label in START):
                    target = at
                    break
                at = parent[at]
            if target is None:
                said.append(f"{where}: no step {label} before {names[place]}")
                return m[0]
            return name + ".before" * distance(place, target) + "." + label

        aliases = re.compile(r"let (" + WORD + r") = (" + WORD + r")((?:\.before)*) in")
        for m in aliases.finditer(chunk):
            if m[2] in known and m[1] not in known:
                known[m[1]] = known[m[2]]
        chunk = re.sub(
            r"(?<![\w.'-])(" + WORD + r")((?:\.before)*)(?:\.(" + WORD + "))",
            lambda m: found(m) if m[3] != "before" else m[0],
            chunk,
        )
        for helper, target in helpers.items():
            if target is None:
                continue

            def call(m):
                if m[2] not in known or distance(known[m[2]][0], target) is None:
                    return m[0]
                end = "c" + ".before" * distance(known[m[2]][0], target)
                return f"{m[1]} {end}"

            chunk = re.sub(
                r"(?<![\w.'-])(" + re.escape(helper) + r") (" + WORD + r")((?:\.before)*)(?![\w.'-])",
                call,
                chunk,
            )
        for m in list(aliases.finditer(chunk)):
            if m[2] in known and len(re.findall(r"(?<![\w.'-])" + re.escape(m[1]) + r"(?![\w'-])", chunk)) == 1:
                chunk = re.sub(r"[ \n]*" + re.escape(m[0]) + r"(?=\s)", "", chunk, count=1)
        return chunk

    chunks = re.split(r"(?m)^(?=\S)", text)
    out, place = [], {}
    joined = []
    for chunk in chunks:
        # a signature, its `unfolding` line and its clauses stand together
        first = re.match(WORD, chunk)
        if joined and first and (first[0] == "unfolding" or first[0] == joined[-1][0]):
            joined[-1][1] += chunk
        else:
            named = re.match(r"(?:abbrev |pub )*(" + WORD + ") :", chunk)
            joined.append([named[1] if named else None, chunk])
    for name, chunk in joined:
        if "tie.close" in chunk:
            out.append(spec(chunk, asked, it, paths))
        else:
            out.append(one(chunk))
    return "".join(out)


def spec(chunk, asked, it, paths):
    """The answers that are written in place: the goals in their order, after an invariant and a measure for each loop."""
    at = chunk.index("tie.spec") + len("tie.spec")
    head, rest = chunk[:at], chunk[at:]
    pieces, depth, start = [], 0, None
    for i, ch in enumerate(rest):
        if ch == "(":
            if depth == 0:
                start = i
            depth += 1
        elif ch == ")":
            depth -= 1
            if depth == 0:
                pieces.append((start, i + 1))
            if depth < 0:
                break
        elif depth == 0 and not ch.isspace() and (i == 0 or rest[i - 1].isspace() or rest[i - 1] in "()"):
            end = re.match(WORD, rest[i:])
            if end:
                pieces.append((i, i + len(end[0])))
    goals = [None] * (2 * len(it["loops"])) + ["Need-" + need[1] for need in it["needs"]]
    if len(goals) != len(pieces):
        return chunk
    out, last = [], 0
    for (a, b), goal in zip(pieces, goals):
        out.append(rest[last:a])
        piece = rest[a:b]
        if goal and piece.startswith("(") and asked.get(goal) is not None:
            piece = paths(piece, {"c": (asked[goal], "c")})
        out.append(piece)
        last = b
    return head + "".join(out) + rest[last:]


START = {"args", "requires", "well-formed", "well_formed", "utf8", "ranges"}


def turn(text, it, where):
    said = []
    needs = {}
    for old, new in it["needs"]:
        needs[plain(old)] = new
    places = {}
    for (old, *_), new in zip(it["places"], it["places_by_name"]):
        places[plain(old)] = new
    labels = {}
    for old, _, (was, new), *_ in it["places"]:
        if was and labels.setdefault(plain(was), new) != new:
            said.append(f"{where}: the step {was} is {labels[plain(was)]} or {new}")
    loops = {plain(old): new for loop in it["loops"] for old, new in [loop[0]]}

    def tie(m):
        name = m[1]
        p = plain(name)
        for head in ("invariant", "decreases"):
            if p.startswith(head + "_") and p[len(head) + 1 :] in loops:
                return f"tie.{head}-{loops[p[len(head) + 1 :]]}"
        if p.startswith("Need_"):
            q = p[5:]
            for one in (
                q,
                re.sub(r"^overflow_", "", q),
                re.sub(r"^slice_bounds_", "part_", q),
                re.sub(r"^bounds_", "", q),
            ):
                if one in needs:
                    return "tie.Need-" + needs[one]
            said.append(f"{where}: no goal {name}")
            return m[0]
        if p in places:
            return "tie." + places[p]
        if name not in ("close", "spec", "Statement"):
            said.append(f"{where}: no name {name}")
        return m[0]

    def label(m):
        p = plain(m[1])
        return "." + labels[p] if p in labels and m[1] not in KEPT else m[0]

    parts = code_and_comments(text)
    for i in range(0, len(parts), 2):
        code = now_behind(parts[i])
        lines = code.split("\n")
        for k, one in enumerate(lines):
            if re.match(r"\s*(pub |unfoldable )*use ", one):
                continue
            one = re.sub(r"\btie\.(" + WORD + ")", tie, one)
            one = re.sub(
                r"(?<=[\w'₀-₉)-])\.(" + WORD + ")",
                lambda m: label(m) if not m.string[: m.start()].endswith("tie") else m[0],
                one,
            )
            lines[k] = re.sub(r"(?<![\w.'-])needs(?![\w'-])", "rules", one)
        parts[i] = "\n".join(lines)
    text = "".join(parts)
    text = without_import(text, "now")
    text = re.sub(
        r"(?m)^(use Rattle\.rows\.proofs\.Prelude\.\{[^}\n]*)\bneeds\b",
        r"\1rules",
        text,
    )
    text = anchored(text, it, where, said)
    return text, said


KEPT = {
    "before",
    "args",
    "requires",
    "ensures",
    "now",
    "new",
    "old",
    "result",
    "invariant",
}


def main(crates):
    for crate in crates:
        it = names_of(crate)
        root = os.path.join("crates", crate, "proofs")
        for folder, dirs, files in os.walk(root):
            for f in files:
                path = os.path.join(folder, f)
                with open(path, encoding="utf-8") as file:
                    was = file.read()
                if f == "Proof.antt":
                    key = f"Rattle-{crate}-proofs." + os.path.relpath(folder, root).replace(os.sep, ".") + ".Lts"
                    if key not in it:
                        print(f"{path}: no such function")
                        continue
                    text, said = turn(was, it[key], path)
                    for line in said:
                        print(line)
                else:
                    text = now_behind(was)
                    text = without_import(text, "now")
                    text = re.sub(
                        r"(?m)^(use Rattle\.rows\.proofs\.Prelude\.\{[^}\n]*)\bneeds\b",
                        r"\1rules",
                        text,
                    )
                    text = re.sub(r"\bsearch needs\b", "search rules", text)
                    text = re.sub(r"\bsearch \(needs,", "search (rules,", text)
                if text != was:
                    with open(path, "w", encoding="utf-8") as file:
                        file.write(text)


if __name__ == "__main__":
    if len(sys.argv) < 2:
        raise SystemExit(__doc__)
    main(sys.argv[1:])
