#!/usr/bin/env python3
"""Whether vectors and calls see a wrong instruction: instructions of the library, compiled for WebAssembly, are changed one by one.

    targets/mutants.py [MANY [SEED]]      so many of them, 24 if none is given; prints each that was not seen

A comparison is turned or moved by one, a constant is one more or less, a jump is taken where it was not. Needs what targets/test.sh
needs, after targets/build.sh, and wabt of Debian. A check that the proofs show never to fail compiles to code that no call reaches: of a
mutant that is not seen the place is printed, so that a reader can tell.
"""
import pathlib
import random
import re
import subprocess
import sys
import tempfile

ROOT = pathlib.Path(__file__).resolve().parent.parent
LIB = ROOT / "target/lib"
CALLS = "20000"
VECTORS = ROOT / "crates/vectors/data/vectors.bin"
OTHER = {
    "i32.eq": "i32.ne",
    "i32.ne": "i32.eq",
    "i64.eq": "i64.ne",
    "i64.ne": "i64.eq",
    "i32.lt_u": "i32.le_u",
    "i64.lt_u": "i64.le_u",
    "i32.gt_u": "i32.ge_u",
    "i64.gt_u": "i64.ge_u",
    "i32.and": "i32.or",
    "i32.or": "i32.and",
    "i32.add": "i32.sub",
}
SITE = re.compile(
    r"^\s+(i32\.const -?\d+|i32\.eqz|br_if \d+|"
    + "|".join(re.escape(name) for name in OTHER)
    + r")(?: \(;.*;\))?(?:\s.*)?$"
)


def run(*words, **more):
    return subprocess.run([str(word) for word in words], check=True, capture_output=True, text=True, **more)


def module(work):
    """targets/calls.c and the library, linked with their names, as text."""
    run(
        "clang",
        "--target=wasm32-wasi",
        "-std=c11",
        "-O2",
        f"-I{ROOT}/include",
        f"-fuse-ld={LIB}/wasm-ld",
        ROOT / "targets/calls.c",
        LIB / "wasm32-unknown-unknown/O3/libterminal.a",
        "-o",
        work / "calls.wasm",
    )
    return run("wasm2wat", "--enable-all", work / "calls.wasm").stdout.split("\n")


def sites(lines):
    """The lines of the library's functions that can be changed, each with its function."""
    name, found = None, []
    for place, line in enumerate(lines):
        if line.startswith("  (func $"):
            name = line.split()[1][1:]
            name = name if "::" in name or name.startswith("tillerclover_") else None
        elif name and SITE.match(line):
            found.append((place, name))
    return found


def changed(line, chance):
    old = SITE.match(line).group(1)
    if old.startswith("i32.const"):
        return line.replace(old, f"i32.const {int(old.split()[1]) + chance.choice([1, -1])}", 1)
    if old == "i32.eqz" or old.startswith("br_if"):
        return "    i32.eqz\n" + line
    return line.replace(old, OTHER[old], 1)


def said(path):
    """What the vectors and the calls print."""
    try:
        return run(
            "node",
            "--experimental-wasi-unstable-preview1",
            ROOT / "targets/wasi.mjs",
            path,
            VECTORS,
            CALLS,
            timeout=100,
        ).stdout.strip()
    except subprocess.TimeoutExpired:
        return "no end"
    except subprocess.CalledProcessError:
        return "stopped"


def main(many=24, seed=5):
    chance = random.Random(seed)
    with tempfile.TemporaryDirectory() as folder:
        work = pathlib.Path(folder)
        lines = module(work)
        whole, seen, missed = said(work / "calls.wasm"), 0, 0
        for place, name in chance.sample(sites(lines), many):
            mutant = lines[:place] + [changed(lines[place], chance)] + lines[place + 1 :]
            (work / "mutant.wat").write_text("\n".join(mutant))
            run("wat2wasm", "--enable-all", work / "mutant.wat", "-o", work / "mutant.wasm")
            if said(work / "mutant.wasm") != whole:
                seen += 1
                continue
            missed += 1
            print(f"not seen: {name}, line {place + 1}: {lines[place].strip()} -> {mutant[place].strip()}")
    print(f"mutants: {seen} seen, {missed} not seen")


if __name__ == "__main__":
    main(*map(int, sys.argv[1:]))
