"""Makes docs/RULES.md for tests/documents.py: the rules as one reads them, each definition beside the sentences of the papers that it answers.

The definitions, with the comments above them, are those of the crate that tests/trace.py calls `RULES`, of `QUEUE` and of `FILES`; which
sentences a definition answers stands in docs/trace.txt.
"""
import re

from sources import fault, read
from trace import EXPORTED, RULES, parsed

PAGE = "docs/RULES.md"
# the crates with the pages on waiting records and on files of rows
QUEUE, FILES = "rules_queue", "rules_files"
# the pages in the order in which one reads them, each with the papers' section; of `RULES` where no crate is named
PAGES = [
    ("Types", "The papers' words"),
    ("Directory", "The directory"),
    ("Bodies", "The record, and what it asks for"),
    ("Permission", "Permission"),
    ("States", "Device states"),
    ("Checks", "Why a record is turned away"),
    ("Effect", "What becomes of the tables"),
    ("Reply", "Reading the tables back"),
    ("Outcome", "The outcome"),
    (f"{QUEUE}/Queue", "Waiting records"),
    (f"{FILES}/ListTest", "The test of a list"),
    (f"{FILES}/Conversion", "Lists of the older terminals"),
    ("Isolation", "The others alone"),
    ("Tables", "The tables"),
    ("Writing", "Values as bytes"),
    ("Reading", "Bytes as values"),
    (f"{QUEUE}/QueueBytes", "Waiting records as bytes"),
    ("Struct", "What the code's types give"),
    ("Lists", "Lists"),
]
OPENING = f"""# The rules as one reads them

Made by `tests/documents.py --write` from the definitions in crates/{RULES}/specs, crates/{QUEUE}/specs and crates/{FILES}/specs, with the comments above them, for readers who do not have the toolchain. A line 'sentences' above a definition names those of the papers that it answers, by section and number, as docs/trace.txt has them: `permission.5` is the fifth sentence of 01's 'Permission', `U8.7` the seventh of that request.

How to read a definition: `f : A → B` says that f makes a B of an A, and the lines below it say which, a line for each case. `Maybe A` is a value or `none`; `x.f` is the field f of x; `cond b x y` is x if b holds, else y; `eqb`, `leb` and `ltb` compare numbers (equal, at most, less); `any`, `all`, `find`, `put` and `without` are in the last section. `same` compares bytes, and `x ∷ xs` is a list that begins with x.

Words that are defined below these pages:

- `bit b i` is bit i of the bytes b, and `bits b i n` the number in the n bits from bit i on; bit 0 is the top bit of the first byte.
- `be16 n` is the two bytes of a number of 16 bits, the higher byte first.
- `lookup n entries x` is what the first entry with the number n has beside it, or x if there is none.
- `joined rows` is the bytes of the rows, one row after the other; `packed n rows` is the same, with zeros up to n bytes.
- `rows_of s n b` is the first n rows, of s bytes each, of the bytes b; `rows table t` is the rows in use of one of the tables t.
- `all_zero b` holds if each byte is 0.
- `ones n` counts the bits of n that are 1; `bit_or m n` has the bits that m or n has.
- `set_of p ns` is a number of 64 bits, with a bit for each n of ns for which p holds; the top bit is resource 0.
- `roles_of w` is the two role places of a credential row, in use or not; `no_role w` holds if a place is not in use.
- `waiting b` is the slots in use of a queue of bytes, and `record_of slot` the record that one keeps. `round_of b` is the round: `anew`, or `after_seat` with the two bytes of a place.

What is proved of them, for every record and tables of any content: the outcome over bytes is this outcome, written (`outcome_written`, {RULES}/proofs/Whole.antt). Of the code: what `judge` and `take` promise is this outcome, written (`judge_typed`, `take_typed`, rules_demands/proofs/OneCall.antt); of C calls `c_typed_rules` and, for demand 3, `c_typed_isolation` (rules_demands/proofs/Calls.antt). Waiting records: in a terminal of any content a hand-in, a take and a record judged at once give what these rules give, written, with the queue that is left (`steps_written`, {QUEUE}/proofs/Steps.antt; of C calls `c_typed_queue`). The test of a list of bytes is that of its typed rows (`list_tested_lem`, {FILES}/proofs/ListRead.antt), and the fields of the rows that an old list becomes, of at most 32, are those of its typed rows (`rows_converted`, {FILES}/proofs/ConversionRead.antt). Bytes are read as tables, and as a terminal, exactly where they are the written form of sound ones (`sound_exact`, {RULES}/proofs/SoundExact.antt; `terminal_exact`, {QUEUE}/proofs/QueueExact.antt), so that of 'Values as bytes' and 'Bytes as values' the first is enough, except for a record's header and the build's default lists: these are in the second.

Not on this page: the office's list (U6) is in crates/rules_office/specs, what the older terminals' lists gave and checks 23 to 25 (U12) in rules_legacy, access rows in any order (U14) in rules_order, what the book of demand 3 is fed (U13) in rules_runs and rules_demands, the 25 takes in rules_runs, and the text of a run in report.
"""


def sentences():
    """The sentences that each definition answers, by File.name."""
    found = {}
    for row in parsed()[1]:
        if row.is_rule():
            for name in row.parts["definition"]:
                if "/" not in name or name.startswith((f"{RULES}/", f"{QUEUE}/", f"{FILES}/")):
                    found.setdefault(name.split("/")[-1], []).append(row.label())
    return found


def blocks(text):
    """The parts of a page: a heading, or a definition with the comments above it."""
    lines = [line for line in text.split("\n") if not line.startswith("use ")]
    while lines and lines[0].startswith("--"):
        lines.pop(0)
    return [block for block in re.split(r"\n\s*\n", "\n".join(lines)) if block.strip()]


def plain(block):
    """Without the words that only the prover needs, and without the indentation of a block."""
    inside = [line for line in block.split("\n") if not line.startswith("module _")]
    # what a module supposes is an argument of each of its definitions
    given = re.findall(r"^module _ (?:\{[^}]*\} )?(\(.*\)) where$", block, re.M)
    if len(inside) < len(block.split("\n")) or all(line.startswith("  ") for line in inside):
        inside = [line[2:] if line.startswith("  ") else line for line in inside]
    return "".join(f"-- for each {words}, the first argument of these\n" for words in given) + "\n".join(
        re.sub(r"^( *)(?:(?:abbrev|unfoldable) )?pub (?:abbrev |unfoldable )?", r"\1", line) for line in inside
    )


def section(page, title, answers):
    crate, file = page.split("/") if "/" in page else (RULES, page)
    text = read(f"crates/{crate}/specs/{file}.antt")
    first = " ".join(line[3:] for line in re.match(r"(?:--.*\n)*", text).group().splitlines())
    shown = []
    for block in blocks(text):
        code, above = plain(block), []
        for name in re.findall(EXPORTED, block, re.M):
            if re.search(rf"^(?:(?:data|record) )?{re.escape(name)}(?= |$)", code, re.M):
                above += answers.get(f"{file}.{name}", [])
        shown.append((f"-- sentences: {', '.join(above)}\n" if above else "") + code.strip("\n"))
    return (
        f"## {title}\n\n{'' if crate == RULES else crate + '/'}specs/{file}.antt. {first}\n\n```\n"
        + "\n\n".join(shown)
        + "\n```\n"
    )


def page():
    answers = sentences()
    return OPENING + "\n" + "\n".join(section(file, title, answers) for file, title in PAGES)


def renew_rules(write):
    """Writes the page, or compares it."""
    if write:
        with open(PAGE, "w", encoding="utf-8") as file:
            file.write(page())
    elif read(PAGE) != page():
        fault(f"{PAGE} is not what the definitions give today; tests/documents.py --write renews it")
