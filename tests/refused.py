#!/usr/bin/env python3
"""Says which refusals of must-fail edits show nothing of a contract.

    tests/refused.py SAID                          SAID is the output of `rt ci` or `rt must-fail`, which has the first error of each
                                                   edit
    tests/refused.py --whole [--after-ci] EDIT..   proves each of these, CRATE/EDIT, once more, and looks at all that the prover says;
                                                   without one: those that name what they refuse. target/refused/CRATE/EDIT.log has it.
                                                   --after-ci: `rt ci` has just passed, so that no crate is proved again as it stands
    tests/refused.py --log CRATE LOG               the same of all that the prover said to some edit of a crate

Exit status 1: a line for each edit of which

    an error is of the edit's form: a name, a field, a constructor, a clause, a plain type or a number of arguments that does
    not fit, or a text that cannot be read;
    the first error is that a callee's `requires` is not met: what the function itself promises is not looked at there;
    a function or a law is proved that the edit names as refused, in a line 'refused: CRATE::FUNCTION..' or 'refused: FILE.LAW..'
    of its comment, where FILE is one of the crate's proofs/ (only all that the prover says shows it);
    the edit adds a function whose contract does not say what its result is: the right body would then be refused too;
    nothing is said.
"""
import concurrent.futures
import os
import re
import shutil
import sys

import edits

FORM = re.compile(
    r"error: .*(?:is not in scope|that can be named from here|has no field|is not a field of|missing field|no constructor `|is not a constructor"
    r"|has no clause|the patterns give|cannot stand in a pattern|is not a function|is still open|is never closed|unexpected"
    r"|expected type `(?:ℕ|[A-Z][A-Za-z]*|Rattle\.[^ `]+)`, but)"
    r"|error: a declaration is|type `Type [0-9]+`|but this has type `(?:tie\.Need-|goal\.)"
)
# a proof file that names what the edit took away, as a goal that is called after a condition: beside another error it says nothing
GONE = re.compile(
    r"^(?:note: )?(?:\./)?proofs/.*(?:has no field|is not in scope|has no `|was not admitted|no name that rattle asks for)"
)
# an answer to what a callee asks for has a name of its own, or is in the list of answers; without a proof file a note says it
NAMED = re.compile(r"error: `[\w·-]*-requires(?:-[\w-]+)?`")
NOTE = re.compile(r"requires holds at this call")
# what rt itself says of a refusal that shows nothing of a contract
MARK = re.compile(r"\((only because a proof file names|only by a limit)")
# a line of `rt ci` and `rt must-fail`
TRIED = re.compile(r"^(?:rt: )?must-fail (\w+)/([\w.-]+)\.edit: refused, as it must be(.*)$", re.M)


def errors(said):
    """The errors, and the notes of what is not proved. An error goes on in lines that are indented; the second may say what is missing."""
    joined = re.sub(r"(: error: [^\n]*)\n  (?=has no field|is not in scope)", r"\1 ", said)
    return [
        line
        for line in joined.split("\n")
        if re.search(r": error\b|^(?:note: )?\S+:\d+:\d+: it is not proved that", line)
    ]


def first_of(lines):
    """The first error, or else the first note of something that is not proved."""
    return next((line for line in lines if re.search(r": error\b", line)), lines[0] if lines else "")


def answers_a_callee(crate, error):
    """Whether the error stands in an answer that begins with `λ c κs`, as only those to callees do."""
    place = re.match(r"(?:\./)?(proofs/\S+\.antt):(\d+):(\d+): error", error)
    path = f"crates/{crate}/{place.group(1)}" if place else ""
    if not place or not os.path.exists(os.path.join(edits.ROOT, path)):
        return False
    lines = edits.read(path).split("\n")[: int(place.group(2))]
    lines[-1] = lines[-1][: int(place.group(3)) - 1]
    begins = max(number for number, line in enumerate(lines) if number == 0 or re.match(r"\S", line))
    text = "\n".join(lines[begins:])
    still_open = []
    for at, letter in enumerate(text):
        if letter == "(":
            still_open.append(text.startswith("(λ c κs", at))
        elif letter == ")" and still_open:
            still_open.pop()
    return any(still_open)


def named(edit):
    """The functions and laws that an edit names as refused."""
    return [name for words in re.findall(r"^refused: (.*)$", edit, re.M) for name in words.split()]


def loose(edit):
    """The functions that an edit adds without an equation for their result, in which it stands on the left side alone."""
    for line in re.findall(r"^new:.*\bfn .*$", edit, re.M):
        for function in re.split(r"\bfn (?=\w+\W)", line)[1:]:
            equation = re.search(r"ensures (?:\w+ )?\{ \(*(?:tables_of )?result\b[^≡]*≡ (.*?) \}", function)
            if not equation or re.search(r"\bresult\b", equation.group(1)):
                yield re.match(r"\w+", function).group()


def function_at(crate, path, line):
    """The function of the crate in whose text the line stands, its attributes and comments among it."""
    lines, found = edits.read(f"crates/{crate}/{path}").split("\n"), ""
    while line < len(lines) and re.match(r"\s*(?:#\[|//|$)", lines[line - 1]):
        line += 1
    for text in lines[:line]:
        found = (re.findall(r"\bfn (\w+)", text) or [found])[-1]
    return found


def refuses(crate, said, name):
    """Whether a function, or a law of a file of proofs/, is refused itself, and not for a name that is gone."""
    if "::" not in name:
        file, law = name.split(".")
        return bool(re.search(rf"\bproofs/{file}\.antt:\d+:\d+: error: `{law}`(?!.*was not admitted)", said))
    if not re.search(rf"^fn {name}: (?:not proved|no proof)\b", said, re.M):
        return False
    *modules, own = name.split("::")[1:]
    folder = re.compile(r"^(?:note: )?(?:\./)?proofs/" + "".join(f"{one}/" for one in modules) + rf"\+?{own}/")
    mine = [line for line in errors(said) if folder.match(line)]
    # of a function without a proof file, and of a goal without an answer, there are only notes
    notes = re.findall(r"^note: (?:\./)?(src/\S+):(\d+):\d+: it is not proved that", said, re.M)
    return (
        not mine
        or any(not GONE.search(line) for line in mine)
        or any(function_at(crate, path, int(at)) == own for path, at in notes)
    )


def fault_of(crate, said):
    """What is wrong with an edit by what the prover says to it, or None: its form, or the first error."""
    told = errors(said)
    lines = [line for line in told if not GONE.search(line)]
    for line in lines if lines or not told else told:
        if FORM.search(line) or not lines:
            return "is refused for its form", line
    first = first_of(lines)
    if NAMED.search(first) or NOTE.search(first) or answers_a_callee(crate, first):
        return "is refused first for what a callee asks for", first
    return None


def fault(edit, said, whole):
    """What is wrong with a refusal, or None: of what the prover said, all of it or the first error."""
    crate, text = edit.split("/")[0], edits.read(edits.path_of(edit))
    for function in loose(text):
        return f"adds `{function}`, whose contract does not say what its result is", ""
    for name in named(text) if whole else ():
        if not refuses(crate, said, name):
            return f"leaves {name} proved, or not proved for another", ""
    return fault_of(crate, said)


def by_first(path):
    """The faults of all edits, by the first error of each."""
    with open(path, encoding="utf-8", errors="replace") as file:
        told = {f"{crate}/{name}": first for crate, name, first in TRIED.findall(file.read())}
    for edit in edits.every():
        if edit not in told:
            yield edit, ("is not refused, or was not tried", "")
        elif MARK.search(told[edit]) or not re.search(r"\S+:\d+:\d+: ", told[edit]):
            yield edit, ("is refused with no error that shows a fact", told[edit])
        else:
            yield edit, fault(edit, re.sub(r"^.*?: (?=note: |\S+:\d+:\d+: )", "", told[edit]), False)


def by_all(wanted, after_ci):
    """The faults of these edits, by all that the prover says to them, as many at a time as there are processors and memory."""
    by_crate = {}
    for edit in wanted:
        by_crate.setdefault(edit.split("/")[0], []).append(edit)
    for crate in by_crate:
        edits.prove(crate, after_ci)
    free = int(re.search(r"MemAvailable: +(\d+)", open("/proc/meminfo", encoding="ascii").read()).group(1))
    many = max(1, min(len(os.sched_getaffinity(0)), free // 2_500_000))
    with concurrent.futures.ThreadPoolExecutor(many) as pool:
        seeds = {crate: pool.submit(edits.seed, crate, len(its)) for crate, its in by_crate.items()}
        told = {edit: pool.submit(whole, edit, seeds[edit.split("/")[0]]) for edit in wanted}
        for edit, found in told.items():
            yield edit, found.result()
    for one in seeds.values():
        shutil.rmtree(one.result())


def whole(edit, seeded):
    """The fault of an edit by all that the prover says, which is kept."""
    crate, name = edit.split("/")
    what, said = edits.told(crate, edits.read(edits.path_of(edit)), seeded.result())
    log = f"{edits.ROOT}/target/refused/{crate}/{name}.log"
    os.makedirs(os.path.dirname(log), exist_ok=True)
    with open(log, "w", encoding="utf-8") as file:
        file.write(said)
    return fault(edit, said, True) if what == edits.REFUSED else (f"is not refused: {what}", said.split("\n")[0])


def main(words):
    flags = [word for word in words if word.startswith("-")]
    paths = [word for word in words if not word.startswith("-")]
    if flags in (["--whole"], ["--whole", "--after-ci"]):
        wanted = paths or [edit for edit in edits.every() if named(edits.read(edits.path_of(edit)))]
        found = by_all(wanted, "--after-ci" in flags)
    elif flags == ["--log"] and len(paths) == 2:
        with open(paths[1], encoding="utf-8", errors="replace") as file:
            found = [(paths[0], fault_of(paths[0], file.read()))]
    elif not flags and len(paths) == 1:
        found = by_first(paths[0])
    else:
        print(__doc__.strip(), file=sys.stderr)
        return 2
    status = 0
    for edit, wrong in found:
        if wrong:
            print(f"{edit}: {wrong[0]}: {wrong[1][:300]}", flush=True)
            status = 1
    return status


if __name__ == "__main__":
    sys.exit(main(sys.argv[1:]))
