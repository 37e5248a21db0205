#!/usr/bin/env python3
"""Must-fail edits: what they change, and all that the prover says to one. `rt ci` and `rt must-fail` print of that the first error alone.

    tests/edits.py [--after-ci] CRATE FILE.edit LOG

proves the crate with the edit, writes to LOG what the prover says, and prints what comes of it: refused, proved, does not fit, or no
verdict. --after-ci: `rt ci` has just passed, so that neither the crate as it stands nor its libraries are proved again.
"""

import glob
import os
import re
import shutil
import subprocess
import sys
import tempfile

ROOT = os.path.abspath(os.path.join(os.path.dirname(os.path.abspath(__file__)), ".."))
PARTS = ("src", "specs", "proofs")
# what comes of an edit
REFUSED, PROVED, UNFIT, NO_VERDICT = "refused", "proved", "does not fit", "no verdict"


def read(path):
    with open(os.path.join(ROOT, path), encoding="utf-8", errors="replace") as file:
        return file.read()


def crates():
    """Each crate of crates.txt with those that it names, and whether it is a static library."""
    rows = re.findall(r"^(\w+)( staticlib)?:(.*)$", read("crates.txt"), re.M)
    return {name: (rest.split(), bool(static)) for name, static, rest in rows}


def below(crate):
    found = []
    for name in crates()[crate][0]:
        found += [one for one in [*below(name), name] if one not in found] if name in crates() else []
    return found


def every():
    """Each edit of the repository, as CRATE/EDIT."""
    paths = sorted(glob.glob("crates/*/must-fail/*.edit", root_dir=ROOT))
    return ["/".join(re.fullmatch(r"crates/(\w+)/must-fail/([\w.-]+)\.edit", path).groups()) for path in paths]


def path_of(edit):
    crate, name = edit.split("/")
    return f"crates/{crate}/must-fail/{name}.edit"


def changed(crate, text):
    """The texts of the files that an edit changes, by their paths in the crate. ValueError says why it does not fit."""
    path, old, pairs, texts = "", None, 0, {}
    for line in text.replace("\r\n", "\n").split("\n"):
        if line.startswith("file: "):
            path = line[len("file: ") :].strip()
            if os.path.normpath(path) != path or not path.startswith(tuple(f"{part}/" for part in PARTS)):
                raise ValueError(f"'file: {path}' names no file below src/, specs/ or proofs/")
            if path not in texts and not os.path.isfile(f"{ROOT}/crates/{crate}/{path}"):
                raise ValueError(f"there is no file {path}")
            texts.setdefault(path, read(f"crates/{crate}/{path}"))
        elif line.startswith("old: "):
            old = line[len("old: ") :]
        elif line.startswith("new:") and path and old:
            new = re.sub(r"\A ", "", line[len("new:") :])
            found = texts[path].count(old)
            if found != 1:
                raise ValueError(f"an 'old:' text is in {path} {found} times, and not once: {old[:80]}")
            texts[path], old, pairs = texts[path].replace(old, new), None, pairs + 1
    if not pairs or old:
        raise ValueError("it has no whole pair of lines 'old: ' and 'new: ' after a line 'file: '")
    return texts


def kit():
    found = shutil.which("rt")
    if not found:
        raise SystemExit("the command rt is not on the path")
    return os.path.dirname(os.path.dirname(os.path.realpath(found)))


def words(crate):
    """What `rt check` calls in the crate's folder, over the libraries in out/ of their crates."""
    here, (named, static) = kit(), crates()[crate]
    rlib = (
        lambda name: f"{ROOT}/crates/{name}/out/rlib/{name}.rlib" if name in crates() else f"{here}/rlibs/{name}.rlib"
    )
    top = "main" if os.path.exists(f"{ROOT}/crates/{crate}/src/main.rt") else "lib"
    made = [f"{here}/bin/rattle", "check", "--crate-name", crate, f"src/{top}.rt"]
    for name in ("std", *named):
        made += ["--extern", f"{name}={rlib(name)}"]
    for folder in (f"{here}/rlibs", *[os.path.dirname(rlib(name)) for name in below(crate)]):
        made += ["-L", f"dependency={folder}"]
    made += ["--antt-project", f"{here}/rattle/logic/antt-project.json", "--logic-built", f"{here}/logic_built"]
    return made + ["--links", f"{crate}=", *["--crate-type", "staticlib"] * static, "--jobs", "1"]


def link_or_copy(one, other):
    """The prover replaces what it proved in such a file, and changes none."""
    try:
        if one.endswith(".oantt"):
            return os.link(one, other)
    except OSError:
        pass
    return shutil.copy2(one, other)


def check(crate, texts, over=None):
    """The exit status and the words of a check of the crate with these texts, over what an earlier check kept in the folder `over`."""
    # (outside the repository, in which `rt ci` refuses such files wherever no crate has them)
    with tempfile.TemporaryDirectory(prefix="edit-") as room:
        for part in PARTS:
            if os.path.isdir(f"{ROOT}/crates/{crate}/{part}"):
                shutil.copytree(f"{ROOT}/crates/{crate}/{part}", f"{room}/{part}")
        for path, text in texts.items():
            with open(f"{room}/{path}", "w", encoding="utf-8") as file:
                file.write(text)
        whole = words(crate) + (["--incremental", over] if over else [])
        how = {"stdin": subprocess.DEVNULL, "stdout": subprocess.PIPE, "stderr": subprocess.STDOUT, "errors": "replace"}
        done = subprocess.run(whole, cwd=room, check=False, **how)
    return done.returncode, done.stdout


def target():
    os.makedirs(f"{ROOT}/target/edits", exist_ok=True)
    return f"{ROOT}/target/edits"


def left_by_ci(crate):
    """Whether the libraries below are those of `rt ci`, which leaves no stamp beside them; it puts back what was kept before, with one."""
    folders = [f"{ROOT}/crates/{name}/out/rlib" for name in below(crate)]
    return all(os.path.isdir(one) and not os.path.exists(f"{one}/stamp") for one in folders)


def prove(crate, after_ci):
    """Proves the crate as it stands, where `rt ci` did not just do so. Its libraries are then built."""
    if not (after_ci and left_by_ci(crate)):
        done = subprocess.run(
            ["rt", "check"], cwd=f"{ROOT}/crates/{crate}", capture_output=True, text=True, errors="replace", check=False
        )
        if done.returncode:
            raise SystemExit(f"{crate} is not proved without an edit:\n{done.stdout[-600:]}{done.stderr[-600:]}")


def seed(crate, many):
    """A folder with what a check of the crate keeps, if that is worth while for this many edits; else None."""
    kept = f"{ROOT}/crates/{crate}/out/incremental"
    room = tempfile.mkdtemp(prefix="seed-", dir=target())
    if os.path.isdir(kept):
        shutil.copytree(kept, f"{room}/kept", copy_function=link_or_copy)
    elif many > 1:
        os.mkdir(f"{room}/kept")
        check(crate, {}, f"{room}/kept")
    return room


def told(crate, text, room):
    """What comes of the edit with this text, and all that the prover says to it."""
    try:
        texts = changed(crate, text)
    except ValueError as why:
        return UNFIT, str(why)
    with tempfile.TemporaryDirectory(prefix="over-", dir=target()) as over:
        kept = f"{over}/kept" if os.path.isdir(f"{room}/kept") else None
        if kept:
            shutil.copytree(f"{room}/kept", kept, copy_function=link_or_copy)
        status, said = check(crate, texts, kept)
    if status == 0:
        return PROVED, said
    if status == 1 and re.search(r"^logic=not-proved", said, re.M):
        return REFUSED, said
    return (UNFIT if re.search(r"\berror\[[\w-]+\]", said) else NO_VERDICT), said


def main(arguments):
    after_ci = arguments[:1] == ["--after-ci"]
    if len(arguments) != 3 + after_ci or arguments[after_ci].startswith("-"):
        print(__doc__.strip(), file=sys.stderr)
        return 2
    crate, edit, log = arguments[after_ci:]
    prove(crate, after_ci)
    room = seed(crate, 1)
    with open(edit, encoding="utf-8") as file:
        what, said = told(crate, file.read(), room)
    shutil.rmtree(room)
    with open(log, "w", encoding="utf-8") as file:
        file.write(said)
    print(what)
    return 0


if __name__ == "__main__":
    sys.exit(main(sys.argv[1:]))
