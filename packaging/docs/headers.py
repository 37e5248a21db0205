"""Reads the C headers for the reference: sections, types, constants and functions, each with the comment above it, as HTML and as
pages of section 3 of the manual. packaging/docs/build.py calls it."""
import html
import os
import re

# what stands before a declaration and says nothing of its type
ATTRIBUTE = re.compile(r"\bTILLERCLOVER_(?:RESULT|NONNULL)\b\s*|\b(?:static|inline)\s+|__attribute__\(\(.*?\)\)\s*")


class Item:
    """Something that a header declares. `members` are (name, text, comment); of a section they are none."""

    def __init__(self, kind, name, text="", comment="", members=()):
        self.kind, self.name, self.text, self.comment, self.members = kind, name, text, comment, list(members)


# ---- reading


def read(path):
    with open(path, encoding="utf-8") as file:
        return file.read()


def plain(comment):
    """The text of a comment, without its marks."""
    lines = comment.strip()[2:-2].split("\n")
    return "\n".join([lines[0].strip()] + [re.sub(r"^\s*\* ?", "", line).rstrip() for line in lines[1:]]).strip("\n ")


def parts_of(text):
    """The comments, preprocessor lines and declarations of a header, in their order."""
    at = 0
    while at < len(text):
        rest = text[at:]
        match = re.match(
            r"\s+|/\*.*?\*/|#(?:\\\n|[^\n])*|extern \"C\" \{|\}|[A-Z_]+\((?:[^()]|\([^()]*\))*\);?", rest, re.S
        )
        if match:
            at += match.end()
            if not match.group().isspace():
                yield match.group()
            continue
        end = end_of(rest)
        yield rest[:end]
        at += end


def expanded(text):
    """The header with the functions that a macro of its own makes for a kind of names: NAMES(kind, ..)."""
    for name, body in re.findall(r"^#define (\w+)\(kind, \.\.\.\)((?:.*\\\n)*.*)", text, re.M):
        heads = re.findall(r"(static .*?\))\s*\{", body.replace("\\\n", "\n"), re.S)
        text = re.sub(
            rf"^{name}\((\w+),(?:[^()]|\([^()]*\))*\)",
            lambda use: "\n".join(head.replace("##kind##", use.group(1)) + ";" for head in heads),
            text,
            flags=re.M,
        )
    return text


def end_of(text):
    """Where a declaration ends: at a semicolon, or at the brace that closes a function."""
    depth, at = 0, 0
    while at < len(text):
        match = re.match(r"/\*.*?\*/|\"(?:\\.|[^\"\\])*\"|'(?:\\.|[^'\\])*'", text[at:], re.S)
        if match:
            at += match.end()
            continue
        depth += {"{": 1, "}": -1}.get(text[at], 0)
        at += 1
        if depth == 0 and (text[at - 1] == ";" or text[at - 1] == "}" and not re.match(r"\s*\w*\s*;", text[at:])):
            return at
    return at


def members_of(body, mark):
    """(name, text, comment) of the parts of an enum or a struct, which end with `mark`."""
    found, comment = [], ""
    for part in re.findall(rf"/\*.*?\*/|[^\s/{mark}][^/{mark}]*", body, re.S):
        if part.startswith("/*"):
            comment = plain(part)
            continue
        text = " ".join(part.split())
        name = re.match(r"\w+", text) if mark == "," else re.search(r"(\w+)(?:\[[^\]]*\])*$", text)
        found.append((name.group(1) if mark == ";" else name.group(), text, comment))
        comment = ""
    return found


def declared(text, comment):
    """The item of a declaration, or none if it declares nothing for users."""
    body = re.match(r"(?:typedef )?(enum|struct) ?(\w*) \{(.*)\}", text, re.S)
    if body:
        kind, name, inside = body.groups()
        return Item(kind, name, comment=comment, members=members_of(inside, "," if kind == "enum" else ";"))
    head = " ".join(ATTRIBUTE.sub("", re.split(r"\{|;", text)[0]).split())
    name = re.search(r"\b(tillerclover_\w+) ?\(", head)
    return Item("function", name.group(1), head, comment) if name else None


def items(path):
    """The introduction of a header, and its items."""
    text = read(path)
    own = set(re.findall(r"^#undef (\w+)", text, re.M))
    text = expanded(text)
    intro, found, comment, seen = None, [], "", set()
    for part in parts_of(text):
        if part.startswith("/*"):
            if intro is None:
                intro = plain(part)
                continue
            comment = plain(part)
            if comment.startswith("---- "):
                title, _, rest = comment.partition("\n")
                found.append(Item("section", title[5:].strip(), comment=rest.strip("\n")))
                comment = ""
            continue
        define = re.match(r"#define (\w+)(\([^)]*\))?[ \t]+(.*)", part, re.S)
        if define and define.group(1) not in own:
            name, parameters, value = define.groups()
            value = " ".join(value.replace("\\\n", " ").split())
            item = (
                None
                if name.endswith("_")
                else Item("macro", name, f"#define {name}{parameters or ''} {value}", comment)
            )
        else:
            item = None if re.match(r"#|extern|\}|[A-Z_]+\(", part) else declared(part, comment)
        comment = ""
        if item and item.name not in seen:
            seen |= {item.name} - {""}
            found.append(item)
    for before, item in zip(found, found[1:]):
        # A comment is of all functions up to the next one.
        if item.kind == before.kind == "function" and not item.comment:
            item.comment = before.comment
    return intro, without_empty(found)


def without_empty(found):
    """The items without sections that have neither a text nor an item."""
    kept = []
    for place, item in enumerate(found):
        last = place + 1 == len(found) or found[place + 1].kind == "section"
        if item.kind != "section" or item.comment or not last:
            kept.append(item)
    return kept


# ---- the text of a comment


def blocks(comment):
    """('text', t), ('code', t), ('list', [t]) and ('terms', [(name, t)]) of a comment."""
    found = []
    for part in re.split(r"\n\s*\n", comment):
        lines = part.split("\n")
        if all(line.startswith("    ") for line in lines):
            if found and found[-1][0] == "code":
                found[-1] = ("code", found[-1][1] + "\n\n" + part)
            else:
                found.append(("code", part))
        elif re.match(r"\w+ {2,}\S", part) or any(line.startswith(" " * 8) for line in lines):
            terms = re.split(r"\n(?=\S)", part)
            found.append(("terms", [(t.split(None, 1)[0], " ".join(t.split()[1:])) for t in terms]))
        else:
            listed = re.split(r"\n(?=- )", part)
            head = [] if listed[0].startswith("- ") else [listed.pop(0)]
            found += [("text", " ".join(t.split())) for t in head]
            if listed:
                last, _, after = listed[-1].partition("\n")
                more = re.match(r"((?:  .*\n?)*)(.*)", after, re.S)
                listed[-1] = last + " " + more.group(1)
                found.append(("list", [" ".join(t[2:].split()) for t in listed]))
                found += [("text", " ".join(more.group(2).split()))] if more.group(2) else []
    return [(kind, lined(text) if kind == "code" else text) for kind, text in found]


def lined(text):
    """Code without the indentation that its lines share."""
    lines = text.split("\n")
    shared = min(len(line) - len(line.lstrip()) for line in lines if line.strip())
    return "\n".join(line[shared:] for line in lines)


def first_sentence(comment):
    text = next((text for kind, text in blocks(comment) if kind == "text"), "")
    return re.split(r"(?<=[.?!]) (?=[A-Z`])", text)[0]


def as_html(comment, link):
    """The comment as HTML; `link` makes links of the names in a text."""
    out = []
    for kind, content in blocks(comment):
        if kind == "text":
            out.append(f"<p>{link(content)}</p>")
        elif kind == "code":
            out.append(f"<pre>{link(content, code=True)}</pre>")
        elif kind == "list":
            out.append("<ul>" + "".join(f"<li>{link(text)}</li>" for text in content) + "</ul>")
        else:
            terms = "".join(f"<dt><code>{html.escape(n)}</code></dt><dd>{link(t)}</dd>" for n, t in content)
            out.append(f"<dl>{terms}</dl>")
    return "\n".join(out)


# ---- the page of a header


def shown(item, link):
    """The item as HTML."""
    if item.kind == "section":
        return f'<h2 id="{slug(item.name)}">{html.escape(item.name)}</h2>\n{as_html(item.comment, link)}'
    name = item.name or "constants"
    head = f'<h3 id="{item.name}">' if item.name else "<h3>"
    words = {"function": "", "macro": "", "enum": "enum " if item.name else "", "struct": "struct "}[item.kind]
    out = [f"{head}{words}{html.escape(name)}</h3>"]
    if item.text:
        out.append(f'<pre class="declared">{link(broken(item.text), code=True, of=item.name)}</pre>')
    out.append(as_html(item.comment, link))
    if item.members:
        said = any(comment for _, _, comment in item.members)
        rows = [
            f'<tr id="{anchor(item, name)}"><td><code>{link(text, code=True, of=name)}</code></td>'
            + (f"<td>{as_html(comment, link)}</td></tr>" if said else "</tr>")
            for name, text, comment in item.members
        ]
        out.append("<table>" + "".join(rows) + "</table>")
    return "\n".join(part for part in out if part)


def anchor(item, name):
    """Where a member is: constants have names of their own, fields those of their struct too."""
    return name if item.kind == "enum" else f"{item.name}.{name}"


def slug(title):
    return re.sub(r"\W+", "-", title.lower()).strip("-")


def broken(text):
    """A declaration with a parameter in each line, if it is long."""
    if len(text) <= 90 or "(" not in text:
        return text
    head, inside = text.split("(", 1)
    return head + "(\n    " + inside.replace(", ", ",\n    ")


def contents(found, link):
    """The sections of a header, each with its functions and types."""
    out, row = [], []

    def end():
        if row:
            out.append("<ul>" + "".join(row) + "</ul>")
            row.clear()

    for item in found:
        if item.kind == "section":
            end()
            out.append(f'<p><a href="#{slug(item.name)}">{html.escape(item.name)}</a></p>')
        elif item.name:
            said = first_sentence(item.comment)
            row.append(
                f'<li><a href="#{item.name}"><code>{html.escape(item.name)}</code></a>{" " + link(said) if said else ""}</li>'
            )
    end()
    return "\n".join(out)


def names_of(found):
    """The anchors of all names of a header."""
    named = {item.name: item.name for item in found if item.name and item.kind != "section"}
    named.update({name: name for item in found if item.kind == "enum" for name, _, _ in item.members})
    return named


def page(path, link):
    """The title and the body of the page of a header."""
    intro, found = items(path)
    body = [
        f"<h1>{os.path.basename(path)}</h1>",
        as_html(intro, link),
        '<nav class="contents">' + contents(found, link) + "</nav>",
    ]
    return os.path.basename(path), "\n".join(body + [shown(item, link) for item in found])


# ---- pages of the manual


def roff(text):
    return re.sub(r"(?m)^([.'])", r"\\&\1", text.replace("\\", "\\e").replace("-", "\\-").replace("`", ""))


def as_roff(comment):
    out = []
    for kind, content in blocks(comment):
        if kind == "text":
            out += [".PP", roff(content)]
        elif kind == "code":
            out += [".PP", ".nf", ".RS 4", roff(content), ".RE", ".fi"]
        elif kind == "list":
            out += [line for text in content for line in (".IP \\(bu 2", roff(text))]
        else:
            out += [line for name, text in content for line in (".TP", f"\\fI{name}\\fR", roff(text))]
    return "\n".join(out)


def heading(name, version, said, header):
    """The parts that each page of the manual begins with."""
    return [
        f'.TH {name.upper()} 3 "" "tillerclover {version}"',
        ".SH NAME",
        f"{name} \\- {roff(said.rstrip('.:;'))}",
        ".SH SYNOPSIS",
        ".nf",
        f".B #include <{header}>",
    ]


def others(names):
    return ", ".join(f"\\fB{roff(name)}\\fR(3)" for name in names) + "."


def manual(path, version):
    """(file, text) of the page of a header, and of each of its functions that has a comment."""
    header = os.path.basename(path)
    intro, found = items(path)
    functions = [item for item in found if item.kind == "function" and item.comment]
    if not functions:
        return
    whole = header.removesuffix(".h")
    said = blocks(intro)[0][1].removeprefix("Tillerclover: ")
    parts = heading(whole, version, said, header)
    parts += [".fi", ".SH DESCRIPTION", as_roff(intro), ".SH FUNCTIONS"]
    for item in functions:
        parts += [".TP", f"\\fB{roff(item.name)}\\fR(3)", roff(first_sentence(item.comment))]
    yield f"{whole}.3", "\n".join(parts) + "\n"
    for item in functions:
        parts = heading(item.name, version, first_sentence(item.comment), header)
        parts += [".PP", f"{roff(broken(item.text))};", ".fi", ".SH DESCRIPTION", as_roff(item.comment)]
        parts += [".SH SEE ALSO", roff("The types and constants, with their comments: ") + f"<{header}>."]
        parts += [others([whole] + [other.name for other in functions if other is not item])]
        yield f"{item.name}.3", "\n".join(parts) + "\n"
