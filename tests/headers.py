#!/usr/bin/env python3
"""Wrong headers, one edit each: every one must turn a test red.

    tests/headers.py ARCHIVE [NAME..]    tries all of them, or those whose name has one of the words

The inline functions of include/ are not proved, and every C program runs them. An edit is a header, a text that occurs in it
once, and what takes its place. The tests are compiled against the wrong header and run until one fails: the compiler counts,
since it is what a user sees first. A wrong header that no test notices is a survivor, and the exit status is then 1.
"""
import concurrent.futures
import os
import shutil
import subprocess
import sys
import tempfile

ROOT = os.path.dirname(os.path.dirname(os.path.abspath(__file__)))
FLAGS = ["-std=c11", "-O0", "-w"]
# the quickest to notice most comes first
TESTS = ["inlines", "records", "words", "identity", "yards", "interface", "loads", "self_test"]
MAIN, RECORDS, WORDS, STORE, YARDS, SELF_TEST = (
    f"tillerclover{part}.h" for part in ("", "_records", "_words", "_store", "_yards", "_self_test")
)

OUTCOME = [
    ("answer", "said[0]", "said[1]"),
    ("permission", "said[1]", "said[0]"),
    ("payload_offset", "said[2]", "said[3]"),
    ("payload_length", "said[3]", "said[2]"),
    ("reply_length", "said[4]", "said[3]"),
    ("store_first", "said[5]", "said[6]"),
    ("store_count", "said[6]", "said[5]"),
    ("link_set", "said[7]", "said[8]"),
    ("link_count", "said[8]", "said[7]"),
]


def outcome_edits():
    """Each field of an outcome from another word, and cut to fewer bits."""
    casts = {"answer": "(enum tillerclover_answer)", "permission": "(uint8_t)", "link_set": ""}
    for field, word, other in OUTCOME:
        cast = casts.get(field, "(size_t)")
        line = f"outcome.{field} = {cast}{word};"
        yield f"outcome: {field} of another word", MAIN, line, f"outcome.{field} = {cast}{other};"
    yield "outcome: reply_length of 8 bits", MAIN, "(size_t)said[4];", "(uint8_t)said[4];"
    yield "outcome: link_set of 32 bits", MAIN, "outcome.link_set = said[7];", "outcome.link_set = (uint32_t)said[7];"
    yield "outcome: permission of 4 bits", MAIN, "(uint8_t)said[1];", "(uint8_t)(said[1] & 15);"
    yield "outcome: answer of 4 bits", MAIN, "outcome.answer = (enum tillerclover_answer)said[0];", (
        "outcome.answer = (enum tillerclover_answer)(said[0] & 15);"
    )


def call_edits():
    """Arguments that are cut, exchanged or one too large, call by call."""
    judge = "d.creds_length, d.aces, d.aces_length, clock, record, length, reply, capacity, said);"
    hand_in = "record, length, said);\n    return tillerclover_outcome_of"
    take = "d.creds_length, d.aces, d.aces_length, clock, reply, capacity, said, &record_length,"
    listed = "text, capacity, said);"
    tested = "tillerclover_test_list_at(rows, length, said);"
    converted = "tillerclover_convert_list_at(file, length, rows, capacity, said);"
    isolated = "senders, length, said);"
    for name, call, header in (
        ("judge", judge, MAIN),
        ("hand_in", hand_in, MAIN),
        ("test_list", tested, MAIN),
        ("convert_list", converted, MAIN),
        ("isolated", isolated, YARDS),
    ):
        for bits in (8, 16, 32):
            yield f"{name}: length of {bits} bits", header, call, call.replace(" length,", f" (uint{bits}_t)length,", 1)
        yield f"{name}: length and one", header, call, call.replace(" length,", " length + 1,", 1)
        yield f"{name}: length less one", header, call, call.replace(" length,", " length - (length != 0),", 1)
    for name, call in (("judge", judge), ("take", take), ("access_list", listed), ("convert_list", converted)):
        for bits in (8, 16, 32):
            yield f"{name}: capacity of {bits} bits", MAIN, call, call.replace(
                " capacity,", f" (uint{bits}_t)capacity,", 1
            )
        yield f"{name}: capacity and one", MAIN, call, call.replace(" capacity,", " capacity + 1,", 1)
        yield f"{name}: capacity less one", MAIN, call, call.replace(" capacity,", " capacity - (capacity != 0),", 1)
    for name, call in (("judge", judge), ("take", take)):
        yield f"{name}: clock 0", MAIN, call, call.replace(" clock,", " 0,", 1)
        yield f"{name}: clock of 16 bits", MAIN, call, call.replace(" clock,", " (uint16_t)clock,", 1)
        yield f"{name}: the lists exchanged", MAIN, call, call.replace(
            "d.creds_length, d.aces,", "d.creds_length, d.creds,", 1
        )
        yield f"{name}: one list's length for the other", MAIN, call, call.replace("d.aces_length", "d.creds_length", 1)


def text_edits():
    """The rest, each by itself."""
    for name, header, old, new in (
        (
            "listed: length as answer",
            MAIN,
            "listed.answer = (enum tillerclover_answer)said[0];",
            "listed.answer = (enum tillerclover_answer)said[1];",
        ),
        ("listed: length of 8 bits", MAIN, "listed.length = (size_t)said[1];", "listed.length = (uint8_t)said[1];"),
        ("tested: row of 4 bits", MAIN, "tested.row = (size_t)said[1];", "tested.row = (size_t)(said[1] & 1);"),
        (
            "tested: answer from the row",
            MAIN,
            "tested.answer = (enum tillerclover_answer)said[0];",
            "tested.answer = (enum tillerclover_answer)said[1];",
        ),
        (
            "converted: length of 8 bits",
            MAIN,
            "converted.length = (size_t)said[1];",
            "converted.length = (uint8_t)said[1];",
        ),
        ("is_sound: the other way round", MAIN, "terminal->waiting.bytes) != 0;", "terminal->waiting.bytes) == 0;"),
        ("self test: digests left out", SELF_TEST, " && digest == known;", ";"),
        ("self test: answers left out", SELF_TEST, "return answer == step[1] && digest", "return digest"),
        ("self test: takes left out", SELF_TEST, "step <= TILLERCLOVER_KNOWN_STEPS; step++", "step < 40; step++"),
        ("self test: any archive", SELF_TEST, "if (!tillerclover_identified())", "if (tillerclover_identified() > 1)"),
        (
            "self test: replies left out",
            SELF_TEST,
            "outcome->reply_length <= TILLER",
            "outcome->reply_length < 0 * TILLER",
        ),
        (
            "taken: length of 8 bits",
            MAIN,
            "taken.record_length = (size_t)record_length;",
            "taken.record_length = (uint8_t)record_length;",
        ),
        (
            "taken: one byte more",
            MAIN,
            "taken.record_length = (size_t)record_length;",
            "taken.record_length = (size_t)record_length + 1;",
        ),
        (
            "defaults: a null pointer is read",
            MAIN,
            "return defaults == NULL ? none : *defaults;",
            "return defaults != NULL ? none : *defaults;",
        ),
        ("defaults: never any", MAIN, "return defaults == NULL ? none : *defaults;", "return none;"),
        ("SET_BIT: without parentheses", MAIN, "(63 - (resource)))", "(63 - resource))"),
        ("SET_BIT: one lower", MAIN, "(63 - (resource)))", "(62 - (resource)))"),
        (
            "SET_BIT: the whole without parentheses",
            MAIN,
            "(UINT64_C(1) << (63 - (resource)))",
            "UINT64_C(1) << (63 - (resource))",
        ),
        ("RECORD_MAX: one more", MAIN, "TILLERCLOVER_RECORD_MAX = 256,", "TILLERCLOVER_RECORD_MAX = 257,"),
        ("TEXT_MAX: one less", MAIN, "TILLERCLOVER_TEXT_MAX = 13069,", "TILLERCLOVER_TEXT_MAX = 13068,"),
        ("REPLY_MAX: one less", MAIN, "TILLERCLOVER_REPLY_MAX = 1168,", "TILLERCLOVER_REPLY_MAX = 1167,"),
        ("KEPT: another number", MAIN, "TILLERCLOVER_KEPT = 0,", "TILLERCLOVER_KEPT = 26,"),
        ("STORE_LENGTH: of a sum", STORE, "(2 * (n) + TILLERCLOVER_STORE_MARKS)", "(2 * n + TILLERCLOVER_STORE_MARKS)"),
        (
            "STORE_LENGTH: the whole without parentheses",
            STORE,
            "(2 * (n) + TILLERCLOVER_STORE_MARKS)",
            "2 * (n) + TILLERCLOVER_STORE_MARKS",
        ),
        ("isolated: entry for row", YARDS, "isolation.row = (size_t)said[2];", "isolation.row = (size_t)said[1];"),
        (
            "isolated: reason of 2 bits",
            YARDS,
            "isolation.reason = (uint8_t)said[0];",
            "isolation.reason = (uint8_t)(said[0] & 3);",
        ),
        (
            "identified: a later one passes",
            YARDS,
            "tillerclover_identity() == TILLERCLOVER_IDENTITY;",
            "tillerclover_identity() <= TILLERCLOVER_IDENTITY;",
        ),
        (
            "identified: an earlier one passes",
            YARDS,
            "tillerclover_identity() == TILLERCLOVER_IDENTITY;",
            "tillerclover_identity() >= TILLERCLOVER_IDENTITY;",
        ),
        (
            "identified: the minor version is left out",
            YARDS,
            "tillerclover_identity() == TILLERCLOVER_IDENTITY;",
            "tillerclover_identity() / 1000 == TILLERCLOVER_IDENTITY / 1000;",
        ),
        (
            "identified: always",
            YARDS,
            "return tillerclover_identity() == TILLERCLOVER_IDENTITY;",
            "return tillerclover_identity() != 0;",
        ),
        (
            "set_owner: owned by the first byte alone",
            RECORDS,
            "memcmp(uuid, nil, sizeof nil) != 0",
            "memcmp(uuid, nil, 1) != 0",
        ),
        (
            "set_owner: owned by all but the last byte",
            RECORDS,
            "memcmp(uuid, nil, sizeof nil) != 0",
            "memcmp(uuid, nil, 15) != 0",
        ),
        ("record: verb of 2 bits", RECORDS, "(verb & 7)", "(verb & 3)"),
        ("record: resource of 5 bits", RECORDS, "(resource & 63)", "(resource & 31)"),
        ("record: connection left out", RECORDS, "((unsigned)connection & 1)", "(0 & 1)"),
        (
            "record: a longer body is cut to fit",
            RECORDS,
            "TILLERCLOVER_RECORD_ROOM = TILLERCLOVER_RECORD_MAX + 1",
            "TILLERCLOVER_RECORD_ROOM = TILLERCLOVER_RECORD_MAX",
        ),
        ("getter: verb of 2 bits", RECORDS, ">> TILLERCLOVER_VERB_SHIFT;", ">> TILLERCLOVER_VERB_SHIFT & 3;"),
        (
            "getter: resource of 5 bits",
            RECORDS,
            ">> TILLERCLOVER_RESOURCE_SHIFT & 63;",
            ">> TILLERCLOVER_RESOURCE_SHIFT & 31;",
        ),
        (
            "getter: resource of 4 bits",
            RECORDS,
            ">> TILLERCLOVER_RESOURCE_SHIFT & 63;",
            ">> TILLERCLOVER_RESOURCE_SHIFT & 15;",
        ),
        (
            "getter: sender of 8 bits",
            RECORDS,
            "return tillerclover_get_16(record + TILLERCLOVER_SENDER_AT);",
            "return tillerclover_get_16(record + TILLERCLOVER_SENDER_AT) & 255;",
        ),
        ("set_state: target of 2 bits", RECORDS, "((unsigned)target & 7)", "((unsigned)target & 3)"),
        (
            "set_row_owner: of another resource",
            RECORDS,
            "return tillerclover_request(TILLERCLOVER_UPDATE, resource, sender, uuid, TILLERCLOVER_UUID_LENGTH);",
            "return tillerclover_request(TILLERCLOVER_UPDATE, (enum tillerclover_resource)(resource & 3), sender, uuid, TILLERCLOVER_UUID_LENGTH);",
        ),
        (
            "delete_row: number of 8 bits",
            RECORDS,
            "tillerclover_put_16(body, number);",
            "tillerclover_put_16(body, number & 255);",
        ),
        (
            "put_16: the bytes exchanged",
            RECORDS,
            "at[0] = (uint8_t)(number >> 8 & 255);",
            "at[0] = (uint8_t)(number & 255);",
        ),
        (
            "put_32: the high half twice",
            RECORDS,
            "tillerclover_put_16(at + 2, (unsigned)(number & 65535));",
            "tillerclover_put_16(at + 2, (unsigned)(number >> 16));",
        ),
        (
            "put_64: the low half twice",
            RECORDS,
            "tillerclover_put_32(at, (uint32_t)(number >> 32));",
            "tillerclover_put_32(at, (uint32_t)number);",
        ),
        ("get_32: the low half of 8 bits", RECORDS, "<< 16 | tillerclover_get_16(at + 2);", "<< 16 | at[3];"),
        (
            "get_64: the high half left out",
            RECORDS,
            "return (uint64_t)tillerclover_get_32(at) << 32 | tillerclover_get_32(at + 4);",
            "return tillerclover_get_32(at + 4);",
        ),
        (
            "pack_ace: permission of 4 bits",
            RECORDS,
            "(row->permission & 31) << TILLERCLOVER_ACE_PERMISSION_SHIFT",
            "(row->permission & 15) << TILLERCLOVER_ACE_PERMISSION_SHIFT",
        ),
        ("pack_ace: wildcards of 2 bits", RECORDS, "(row->wildcards & 7)", "(row->wildcards & 3)"),
        (
            "pack_ace: first for last",
            RECORDS,
            "tillerclover_put_32(body + TILLERCLOVER_ACE_LAST_AT, row->last);",
            "tillerclover_put_32(body + TILLERCLOVER_ACE_LAST_AT, row->first);",
        ),
        (
            "pack_ace: authority for role",
            RECORDS,
            "tillerclover_put_16(body + TILLERCLOVER_ACE_ROLE_AT, row->role);",
            "tillerclover_put_16(body + TILLERCLOVER_ACE_ROLE_AT, row->authority);",
        ),
        ("pack_cred: type of 5 bits", RECORDS, "(row->type & 63)", "(row->type & 31)"),
        (
            "pack_cred: role for authority",
            RECORDS,
            "tillerclover_put_16(body + TILLERCLOVER_CRED_AUTHORITY_AT, row->authority);",
            "tillerclover_put_16(body + TILLERCLOVER_CRED_AUTHORITY_AT, row->role);",
        ),
        (
            "pack_role: role for authority",
            RECORDS,
            "tillerclover_put_16(body + TILLERCLOVER_ASSERTED_AUTHORITY_AT, role->authority);",
            "tillerclover_put_16(body + TILLERCLOVER_ASSERTED_AUTHORITY_AT, role->role);",
        ),
        (
            "pack_old_row: permission of 4 bits",
            RECORDS,
            "(row->permission & 31) << TILLERCLOVER_OLD_PERMISSION_SHIFT",
            "(row->permission & 15) << TILLERCLOVER_OLD_PERMISSION_SHIFT",
        ),
        (
            "unpack_ace: kind of 1 bit",
            RECORDS,
            "(word >> TILLERCLOVER_ACE_KIND_SHIFT & 3)",
            "(word >> TILLERCLOVER_ACE_KIND_SHIFT & 1)",
        ),
        (
            "unpack_ace: permission of 4 bits",
            RECORDS,
            "word >> TILLERCLOVER_ACE_PERMISSION_SHIFT & 31;",
            "word >> TILLERCLOVER_ACE_PERMISSION_SHIFT & 15;",
        ),
        (
            "unpack_ace: first for last",
            RECORDS,
            "row.last = tillerclover_get_32(body + TILLERCLOVER_ACE_LAST_AT);",
            "row.last = tillerclover_get_32(body + TILLERCLOVER_ACE_FIRST_AT);",
        ),
        (
            "unpack_cred: authority for role",
            RECORDS,
            "row.role = tillerclover_get_16(body + TILLERCLOVER_CRED_ROLE_AT);",
            "row.role = tillerclover_get_16(body + TILLERCLOVER_CRED_AUTHORITY_AT);",
        ),
        (
            "cred_count: one more than there is room for",
            RECORDS,
            "tables->ncreds < TILLERCLOVER_CRED_CAPACITY ? tables->ncreds : (size_t)TILLERCLOVER_CRED_CAPACITY;",
            "tables->ncreds <= TILLERCLOVER_CRED_CAPACITY ? tables->ncreds : (size_t)TILLERCLOVER_CRED_CAPACITY + 1;",
        ),
        (
            "cred_row: one past the last",
            RECORDS,
            "return index < tillerclover_cred_count(tables)",
            "return index <= tillerclover_cred_count(tables)",
        ),
        (
            "ace_row: rows of another length",
            RECORDS,
            "tables->aces + index * TILLERCLOVER_ACE_LENGTH",
            "tables->aces + index * TILLERCLOVER_CRED_ROW_LENGTH",
        ),
        (
            "find_cred: the low byte alone",
            RECORDS,
            "if (tillerclover_get_16(row + TILLERCLOVER_CRED_NUMBER_AT) == number) {",
            "if (row[TILLERCLOVER_CRED_NUMBER_AT + 1] == (number & 255)) {",
        ),
        (
            "asserted_role: the first for the second",
            RECORDS,
            "slot * TILLERCLOVER_ROLE_LENGTH",
            "0 * TILLERCLOVER_ROLE_LENGTH",
        ),
        ("answer_text: two answers exchanged", RECORDS, 'return "no such verb";', 'return "unknown resource";'),
        ("permission_text: the letters from the other end", WORDS, "\"CRUDN\"[bit] : '-'", "\"CRUDN\"[4 - bit] : '-'"),
        ("permission_of: any letter passes", WORDS, "if (bit == 5) {", "if (bit > 5) {"),
        (
            "uuid_text: a dash elsewhere",
            WORDS,
            "if (i == 4 || i == 6 || i == 8 || i == 10) {",
            "if (i == 4 || i == 6 || i == 8 || i == 11) {",
        ),
        ("uuid_of: what follows is not looked at", WORDS, "return *text == 0;", "return true;"),
        ("digit: f is none", WORDS, "small <= 'f'", "small <= 'e'"),
        ("same_name: the beginning is enough", WORDS, "return *a == 0 && *b == 0;", "return *a == 0;"),
        (
            "names: two resources exchanged",
            WORDS,
            '{TILLERCLOVER_ZERO, "/zero"}, {TILLERCLOVER_TICKET, "/ticket"}',
            '{TILLERCLOVER_ZERO, "/ticket"}, {TILLERCLOVER_TICKET, "/zero"}',
        ),
        (
            "store header: the load leaves records waiting",
            STORE,
            " *         memset(&terminal.waiting, 0, sizeof terminal.waiting);\n",
            "",
        ),
        (
            "store header: a failed store is not noticed",
            STORE,
            " *     if (answer != TILLERCLOVER_STORE_DONE)\n",
            " *     if (answer > TILLERCLOVER_STORE_UNFIT)\n",
        ),
    ):
        yield name, header, old, new


def edits():
    return [*outcome_edits(), *call_edits(), *text_edits()]


def command(words, folder):
    try:
        return subprocess.run(words, cwd=folder, capture_output=True, timeout=120, check=False)
    except subprocess.TimeoutExpired:
        return None


def run(test, include, folder, archive):
    """What the test prints against these headers; None if it fails."""
    lines = command(
        ["bash", "-c", f'. "{ROOT}/tests/header-lines.sh"; header_lines "$1"', "-", f"{include}/{STORE}"], folder
    )
    if lines is None or lines.returncode != 0:
        return None
    with open(os.path.join(folder, "header-lines.h"), "wb") as file:
        file.write(lines.stdout)
    built = command(
        [
            "cc",
            *FLAGS,
            f"-I{include}",
            f"-I{folder}",
            f"-I{ROOT}/tests",
            f"{ROOT}/tests/{test}.c",
            *([archive] if test != "identity" else []),
            "-o",
            f"{folder}/{test}",
        ],
        folder,
    )
    if built is None or built.returncode != 0:
        return None
    done = command([f"{folder}/{test}"], folder)
    return done.stdout if done is not None and done.returncode == 0 else None


def noticed(edit, archive, right):
    """The test that notices the wrong header, or None; a text that is not there once raises an error."""
    _, header, old, new = edit
    with tempfile.TemporaryDirectory() as folder:
        include = os.path.join(folder, "include")
        shutil.copytree(f"{ROOT}/include", include)
        path = os.path.join(include, header)
        with open(path, encoding="utf-8") as file:
            text = file.read()
        if text.count(old) != 1 or old == new:
            raise ValueError(f"'{old}' stands {text.count(old)} times in {header}")
        with open(path, "w", encoding="utf-8") as file:
            file.write(text.replace(old, new))
        return next((test for test in TESTS if run(test, include, folder, archive) != right[test]), None)


def main(arguments):
    if not arguments:
        sys.exit(__doc__)
    archive, words = os.path.abspath(arguments[0]), arguments[1:]
    chosen = [edit for edit in edits() if not words or any(word in edit[0] for word in words)]
    with tempfile.TemporaryDirectory() as folder:
        right = {test: run(test, f"{ROOT}/include", folder, archive) for test in TESTS}
    faults = [f"headers: {test} fails with the right headers" for test in TESTS if right[test] is None]
    with concurrent.futures.ThreadPoolExecutor(os.cpu_count()) as pool:
        for edit, result in zip(chosen, pool.map(lambda edit: answer(edit, archive, right), chosen)):
            if result not in TESTS:
                faults.append(f"headers: {edit[0]}: {result or 'no test notices it'}")
    print("\n".join(faults + [f"{len(chosen)} wrong headers, {len(faults)} faults"]))
    return 1 if faults or not chosen else 0


def answer(edit, archive, right):
    try:
        return noticed(edit, archive, right)
    except ValueError as error:
        return str(error)


if __name__ == "__main__":
    sys.exit(main(sys.argv[1:]))
