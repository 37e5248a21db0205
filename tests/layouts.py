"""The layouts of records, rows, tables and the queue, made from the definitions: as tables of docs/PICTURES.md, and compared with
what include/tillerclover.h says of them.
"""
import math
import re

from sources import HEADER, Changed, fault, found, number, read, right_side

# ---- layouts


def header_field(name):
    """A field of the header that `header_of` reads."""
    match = re.search(rf"\b{name} = (?:resource_of \()?(bits r \d+ \d+)\)?;", right_side("Record", "header_of"))
    if not match:
        raise Changed(f"Record.antt: header_of has no field {name}")
    return match.group(1)


def span(spec, name, end):
    """First bit and number of bits of a field, by its definition; `end` is where its layout ends."""
    text = header_field(name) if spec == "Record" else right_side(spec, name)
    text = re.sub(r"\w+_size\b", lambda size: str(number("Sizes", size.group())), text)
    for pattern, bits_of in (
        (r"(?:eqb \()?bits \w+ (\d+) (\d+)(?:\) 1)?", lambda a, b: (a, b)),
        (r"eqb \(bit \w+ \((\d+) \+ n\)\) 1", lambda a: (a, 64)),
        (r"take (\d+) \(drop (\d+) \w+\)", lambda a, b: (8 * b, 8 * a)),
        (r"take (\d+) \w+", lambda a: (0, 8 * a)),
        (r"drop (\d+) \w+", lambda a: (8 * a, end - 8 * a)),
    ):
        match = re.fullmatch(pattern, text)
        if match:
            return bits_of(*map(int, match.groups()))
    raise Changed(f"{spec}.antt: {name} is '{text}', which is no field")


def places(spec, name):
    """First bit and number of bits of each row of a table within a row, by its definition."""
    text = right_side(spec, name)
    match = re.fullmatch(r"rows_of (\w+) (\w+) \(drop (\w+) \w+\)", text)
    if not match:
        raise Changed(f"{spec}.antt: {name} is '{text}', which is no table")
    stride, count, start = (number("Sizes", size) for size in match.groups())
    return [(8 * (start + i * stride), 8 * stride) for i in range(count)]


class Layout:
    """Fields of a record, a body or a row. What lies between them must be tested to be zero by one of the `zeros`.
    `more` are fields whose places are known."""

    def __init__(self, size, fields, zeros=(), start=0, more=()):
        self.start, self.end = start, 8 * size
        self.fields = list(more)
        for label, spec, name in fields:
            first, width = span(spec, name, self.end)
            self.fields.append((first, width, label))
        self.fields.sort()
        tested = {
            (int(a), int(b))
            for spec, name in zeros
            for a, b in re.findall(r"eqb \(bits \w+ (\d+) (\d+)\) 0", right_side(spec, name))
        }
        at, whole = start, []
        for first, width, label in self.fields + [(self.end, 0, None)]:
            if first < at:
                raise Changed(f"{label} stands at bit {first}, and the field before it ends at {at}")
            if first > at:
                if (at, first - at) not in tested:
                    raise Changed(f"bits {at} to {first - 1}, before {label}, belong to no field and are not tested")
                whole.append((at, first - at, "zeros"))
            if label is not None:
                whole.append((first, width, label))
            at = first + width
        if at != self.end:
            raise Changed(f"the last field ends at bit {at}, and the layout at {self.end}")
        self.whole = whole

    def at(self, bit):
        return next(field for field in self.whole if field[0] <= bit < field[0] + field[1])

    def draw(self):
        """Rows of 32 bits, three columns for a bit; rows that one field fills are drawn as one."""
        rows, bit = [], self.start
        while bit < self.end:
            last = min(bit + 32, self.end)
            if rows and last - bit == 32 and rows[-1][1] - rows[-1][0] == 32:
                field = self.at(bit)
                if all(self.at(b) is field for b in (bit, last - 1, rows[-1][0], rows[-1][1] - 1)):
                    bit = last
                    continue
            rows.append((bit, last))
            bit = last
        parts = []
        for first, last in rows:
            cells, bit = [], first
            while bit < last:
                field = self.at(bit)
                stop = min(last, field[0] + field[1])
                cells.append((bit, stop, field))
                bit = stop
            parts.append(cells)
        labelled = {}
        for place, cells in enumerate(parts):
            for cell in cells:
                best = labelled.get(cell[2])
                if best is None or cell[1] - cell[0] > best[1][1] - best[1][0]:
                    labelled[cell[2]] = (place, cell)
        text = [
            "byte  "
            + "".join(f"{b:<3}" for b in range(32 if self.end - self.start > 31 else self.end - self.start)).rstrip()
        ]
        for place, cells in enumerate(parts):
            text.append("      " + self.border(parts[place - 1] if place else [], cells))
            line = ""
            for first, stop, field in cells:
                words = ""
                if labelled[field] == (place, (first, stop, field)):
                    many = field[1] // 8
                    longer = f"{field[2]} ({many} bytes)"
                    words = longer if field[1] > 32 and len(longer) < 3 * (stop - first) else field[2]
                    if len(words) > 3 * (stop - first) - 1:
                        raise Changed(f"'{words}' is too long for {stop - first} bits")
                line += "|" + words.center(3 * (stop - first) - 1)
            text.append(f"{cells[0][0] // 8:>4}  {line}|")
        text.append("      " + self.border(parts[-1], []))
        return "\n".join(line.rstrip() for line in text)

    @staticmethod
    def border(above, below):
        """A line between two rows, left out where one field goes on from the end of the row above."""

        def column(cells, i):
            origin = cells[0][0] if cells else 0
            return next((c for c in cells if c[0] - origin <= i < c[1] - origin), None)

        width = max((cells[-1][1] - cells[0][0] for cells in (above, below) if cells), default=0)
        marks = set()
        for cells in (above, below):
            for first, stop, _ in cells:
                marks |= {first - cells[0][0], stop - cells[0][0]}
        line = ""
        for i in range(width):
            a, b = column(above, i), column(below, i)
            goes_on = a is not None and b is not None and a[2] is b[2]
            line += ("+" if i in marks else " " if goes_on else "-") + ("  " if goes_on else "--")
        return line + "+"


def layouts():
    body_start = found("Record", "body", r"drop (\d+)")
    header = Layout(
        body_start,
        [
            ("verb", "Record", "verb"),
            ("c", "Record", "connection"),
            ("resource", "Record", "resource"),
            ("zeros", "Record", "zeros"),
            ("credential number", "Record", "credential"),
        ],
    )
    doxm = Layout(
        found("Action", "update_doxm", r"\((\d+), if_allowed \(owner_body"),
        [("o", "Bodies", "new_owned"), ("device owner UUID", "Bodies", "new_owner")],
        [("Bodies", "owner_body")],
    )
    pstat = Layout(
        found("Action", "update_pstat", r"\((\d+), if_allowed \(state_body"),
        [("target", "Bodies", "target")],
        [("Bodies", "state_body")],
    )
    cred = Layout(
        number("Tables", "stride Creds"),
        [
            ("number", "Bodies", "row_number"),
            ("subject UUID", "Bodies", "cred_subject"),
            ("role", "Bodies", "cred_role"),
            ("authority", "Bodies", "cred_authority"),
            ("type", "Bodies", "cred_type"),
        ],
        [("Bodies", "cred_storable")],
        more=[(*place, f"{nth} asserted role") for place, nth in zip(places("Roles", "roles_of"), ("first", "second"))],
    )
    asserted = Layout(
        found("Action", "update_roles", r"\((\d+), if_allowed \(not \(no_role"),
        [
            ("authority", "Roles", "asserted_authority"),
            ("role", "Roles", "asserted_role"),
            ("last second", "Roles", "asserted_last"),
        ],
    )
    ace = Layout(
        number("Tables", "stride Aces"),
        [
            ("number", "Bodies", "row_number"),
            ("kind", "Bodies", "ace_kind"),
            ("permission", "Bodies", "ace_permission"),
            ("+", "Bodies", "ace_plus"),
            ("-", "Bodies", "ace_minus"),
            ("*", "Bodies", "ace_star"),
            ("set of resources", "Bodies", "in_set"),
            ("subject", "Bodies", "ace_subject"),
            ("first second", "Bodies", "ace_first"),
            ("last second", "Bodies", "ace_last"),
        ],
        [("Bodies", "ace_storable")],
    )
    # the subject's last four bytes, by its kind; the zeros before them are tested as bytes
    end = sum(span("Bodies", "ace_subject", 0)) // 8
    role = Layout(end, [("authority", "Bodies", "ace_authority"), ("role", "Bodies", "ace_role")], start=8 * end - 32)
    old = Layout(
        found("Old", "old_rows", r"rows_of (\d+)"),
        [
            ("subject UUID", "Old", "old_subject"),
            ("permission", "Old", "old_permission"),
            ("zeros", "Old", "old_zeros"),
            ("set of resources", "Old", "old_set"),
        ],
    )
    return {
        "header": header,
        "doxm": doxm,
        "pstat": pstat,
        "cred": cred,
        "asserted": asserted,
        "ace": ace,
        "role": role,
        "old": old,
    }


# ---- tables and the queue


def plain_number(text, constants):
    """A number, or a sum or product of numbers and constants."""
    return sum(
        math.prod(int(constants.get(f.strip().removeprefix("Permission::"), f.strip())) for f in part.split("*"))
        for part in text.split("+")
    )


def struct_fields():
    source = read("crates/rules/src/lib.rt")
    constants = {}
    for name, value in re.findall(r"pub const (\w+): (?:usize|u8) = ([^;]+);", source):
        constants[name] = plain_number(value.replace(" as usize", ""), constants)
    block = re.search(r"pub struct Tables \{(.*?)\n\}", source, re.S)
    if not block:
        raise Changed("crates/rules/src/lib.rt has no struct Tables")
    fields, at = [], 0
    for name, array, one in re.findall(r"pub (\w+): (?:\[u8; (\w+)\]|(u8)),", block.group(1)):
        long = 1 if one else plain_number(array, constants)
        fields.append((name, at, long))
        at += long
    return fields, at


MEANINGS = {
    "state": "device state",
    "owned": "1 where there is a device owner",
    "ncreds": "credential rows held",
    "naces": "access rows held",
    "devowner": "device owner UUID, or nil",
    "rowners": "row owners of doxm, pstat, cred and acl2",
    "creds": "{} credential rows of {} bytes, zeros behind those held",
    "aces": "{} access rows of {} bytes, zeros behind those held",
}


def tables_table():
    fields, whole = struct_fields()
    text = ["| byte | bytes | field | |", "|---|---|---|---|"]
    for name, at, long in fields:
        if name not in MEANINGS:
            raise Changed(f"the tables have a new field, {name}")
        table = {"creds": "Creds", "aces": "Aces"}.get(name)
        words = MEANINGS[name]
        if table:
            rows, row = number("Tables", f"capacity {table}"), number("Tables", f"stride {table}")
            if rows * row != long:
                raise Changed(f"{name} has {long} bytes, and not {rows} rows of {row}")
            words = words.format(rows, row)
        text.append(f"| {at} | {long} | {name} | {words} |")
    text.append(f"| | {whole:,} | | in all |")
    return "\n".join(text)


def waiting_offsets():
    """Of the memory: round, slots; of a slot: length, record."""
    rounds = found("Slots", "round_of", r"get_or queue (\d+) 0")
    slots = found("Slots", "waiting", r"drop (\d+) queue")
    length = found("Slots", "record_of", r"bits \(drop (\d+) slot\) 0 16")
    record = found("Slots", "record_of", r"\(drop (\d+) slot\)$")
    return rounds, slots, length, record


def waiting_table():
    rounds, slots, length, record = waiting_offsets()
    long, most, whole = (number("Slots", name) for name in ("slot_size", "queue_capacity", "queue_size"))
    if slots + most * long != whole:
        raise Changed("the memory of waiting records is not its head and its slots")
    return "\n".join(
        [
            "| byte | bytes | field | |",
            "|---|---|---|---|",
            f"| 0 | {rounds} | count | how many records wait |",
            f"| {rounds} | {slots - rounds} | round | zeros, or 1 and the credential number of the last record taken |",
            f"| {slots} | {most * long:,} | slots | {most} slots of {long} bytes, the used ones first, zeros behind them |",
            f"| | {whole:,} | | in all |",
            "",
            "| byte of a slot | bytes | field | |",
            "|---|---|---|---|",
            f"| 0 | {length} | seat | the sender's credential number, 0 for unauthenticated senders |",
            f"| {length} | {record - length} | length | of the record |",
            f"| {record} | {long - record} | record | zeros behind it |",
        ]
    )


# ---- the header


def check_header(drawn):
    """The header's numbers are those of the definitions."""
    source = re.sub(r"/\*.*?\*/", "", read(HEADER), flags=re.S)
    has = {name: int(value) for name, value in re.findall(r"\bTILLERCLOVER_(\w+) = (\d+)", source)}
    rounds, slots, length, record = waiting_offsets()
    expected = {
        "HEADER_LENGTH": drawn["header"].end // 8,
        "HEADER_WORD": 0,
        "DOXM_LENGTH": drawn["doxm"].end // 8,
        "PSTAT_LENGTH": drawn["pstat"].end // 8,
        "CRED_LENGTH": number("Tables", "longest Creds"),
        "CRED_ROW_LENGTH": number("Tables", "stride Creds"),
        "CRED_CAPACITY": number("Tables", "capacity Creds"),
        "CRED_ROLES_AT": places("Roles", "roles_of")[0][0] // 8,
        "ROLE_LENGTH": drawn["asserted"].end // 8,
        "ACE_LENGTH": number("Tables", "stride Aces"),
        "ACE_CAPACITY": number("Tables", "capacity Aces"),
        "ACE_WORD": span("Bodies", "ace_kind", 0)[0] // 8,
        "OLD_ROW_LENGTH": drawn["old"].end // 8,
        "WAITING_LENGTH": number("Slots", "queue_size"),
        "WAITING_COUNT_AT": 0,
        "WAITING_ROUND_AT": rounds,
        "WAITING_SLOTS_AT": slots,
        "SLOT_LENGTH": number("Slots", "slot_size"),
        "SLOT_SENDER_AT": 0,
        "SLOT_LENGTH_AT": length,
        "SLOT_RECORD_AT": record,
    }
    # the first byte of a field
    for name, spec, field in (
        ("SENDER", "Record", "credential"),
        ("DOXM_OWNER", "Bodies", "new_owner"),
        ("CRED_NUMBER", "Bodies", "row_number"),
        ("CRED_SUBJECT", "Bodies", "cred_subject"),
        ("CRED_ROLE", "Bodies", "cred_role"),
        ("CRED_AUTHORITY", "Bodies", "cred_authority"),
        ("CRED_TYPE", "Bodies", "cred_type"),
        ("ASSERTED_AUTHORITY", "Roles", "asserted_authority"),
        ("ASSERTED_ROLE", "Roles", "asserted_role"),
        ("ASSERTED_LAST", "Roles", "asserted_last"),
        ("ACE_NUMBER", "Bodies", "row_number"),
        ("ACE_SET", "Bodies", "in_set"),
        ("ACE_SUBJECT", "Bodies", "ace_subject"),
        ("ACE_AUTHORITY", "Bodies", "ace_authority"),
        ("ACE_ROLE", "Bodies", "ace_role"),
        ("ACE_CONNECTION", "Bodies", "ace_connection"),
        ("ACE_FIRST", "Bodies", "ace_first"),
        ("ACE_LAST", "Bodies", "ace_last"),
        ("OLD_SUBJECT", "Old", "old_subject"),
        ("OLD_PERMISSION", "Old", "old_permission"),
        ("OLD_SET", "Old", "old_set"),
    ):
        expected[name + "_AT"] = span(spec, field, 0)[0] // 8
    # how far a field is from the end of its byte or word
    for name, spec, field, unit in (
        ("VERB", "Record", "verb", 16),
        ("CONNECTION", "Record", "connection", 16),
        ("RESOURCE", "Record", "resource", 16),
        ("DOXM_OWNED", "Bodies", "new_owned", 8),
        ("PSTAT_TARGET", "Bodies", "target", 8),
        ("CRED_TYPE", "Bodies", "cred_type", 8),
        ("ACE_KIND", "Bodies", "ace_kind", 16),
        ("ACE_PERMISSION", "Bodies", "ace_permission", 16),
        ("ACE_WILDCARDS", "Bodies", "ace_star", 16),
        ("OLD_PERMISSION", "Old", "old_permission", 8),
    ):
        first, width = span(spec, field, 0)
        expected[name + "_SHIFT"] = -(first + width) % unit
    for name, field in (("PLUS", "ace_plus"), ("MINUS", "ace_minus"), ("STAR", "ace_star")):
        expected["WILDCARD_" + name] = 1 << (span("Bodies", "ace_star", 0)[0] - span("Bodies", field, 0)[0])
    for name in sorted(n for n in has if re.search(r"_(AT|SHIFT|WORD)$", n) and n not in expected):
        fault(f"{HEADER}: TILLERCLOVER_{name} is compared with no definition")
    for name, value in expected.items():
        if has.get(name) != value:
            fault(f"{HEADER}: TILLERCLOVER_{name} is {has.get(name)}, and by the definitions {value}")


def check_yards():
    """The identity and the numbers of the reasons are those of the definitions."""
    header, definitions = read("include/tillerclover_yards.h"), read("crates/rules_interface/specs/Isolated.antt")
    versions = [
        int(re.search(rf"^{name} = (\d+)$", definitions, re.M).group(1))
        for name in ("format_version", "interface_version")
    ]
    said = re.search(r"#define TILLERCLOVER_IDENTITY UINT64_C\((\d+)\)", header)
    if not said or int(said.group(1)) != 1000000 * versions[0] + versions[1]:
        fault("tillerclover_yards.h: the identity is not that of Isolated.antt")
    reports = read("crates/rules_isolation/specs/Question.antt")
    for name, variant in (
        ("ISOLATED", "Isolated"),
        ("ISOLATION_ODD_LENGTH", "OddLength"),
        ("ISOLATION_NOT_SOUND", "Unsound"),
        ("ISOLATION_NO_OWNER", "NoOwner"),
        ("ISOLATION_NAMES_OWNER", "NamesOwner"),
        ("ISOLATION_MAY_ALTER", "MayAlter"),
    ):
        number_of = re.search(rf"^report_of \(?{variant}\b.*reason = (\d+);", reports, re.M)
        if not number_of or f"TILLERCLOVER_{name} = {number_of.group(1)}" not in header:
            fault(f"tillerclover_yards.h: TILLERCLOVER_{name} is not the number that report_of gives {variant}")
