#!/usr/bin/env python3
"""Makes the reference, HTML that is read without a server: every page of docs/, the C headers, and the page of docs/trace.txt.

    packaging/docs/build.py FOLDER            writes it to FOLDER; pandoc must be there
    packaging/docs/build.py --man3 FOLDER     writes pages of section 3 of the manual, one for each header and each function

A page, a header or a function that a text names becomes a link to it.
"""
import concurrent.futures
import glob
import html
import os
import re
import shutil
import subprocess
import sys

sys.dont_write_bytecode = True
sys.path.insert(0, os.path.dirname(os.path.abspath(__file__)))
import headers  # noqa: E402

HERE = os.path.dirname(os.path.abspath(__file__))
# the index: pages by their names without .md, and headers by theirs. What is in no group stands at its end.
GROUPS = [
    ("Start here", ["README", "INTEGRATION", "ARCHITECTURE", "GLOSSARY", "CHANGELOG"]),
    ("The C interface", []),
    ("At the yard", ["ANSWERS", "QUESTIONS", "TOOL", "TOOL-QUESTIONS", "TOOL-FORMATS", "PAGE", "BOXING"]),
    ("A terminal", ["STORE", "TERMINAL", "TERMINAL-TESTS", "JOURNAL", "TARGETS", "BENCHMARKS"]),
    ("Rules and proofs", ["RULES", "PROOFS", "THEOREMS-RULES", "THEOREMS-RUNS", "TRACE", "PICTURES", "DECISIONS"]),
    ("Beside OCF", ["DIFFERENCES", "DIFFERENCES-STATES"]),
    ("Security", ["SECURITY", "SECURITY-MODEL", "ASSESSOR"]),
    ("Changing it", ["CONTRIBUTING", "DESIGN", "DESIGN-AROUND", "PROVING", "WALKS", "MUST-FAIL", "MUST-FAIL-RULES"]),
]
SHELL = """<!DOCTYPE html>
<html lang="en">
<head>
<meta charset="utf-8">
<meta name="viewport" content="width=device-width, initial-scale=1">
<title>{title}</title>
<link rel="stylesheet" href="{up}style.css">
</head>
<body>
<header><a href="{up}index.html">Tillerclover {version}</a></header>
<main>
{body}
</main>
</body>
</html>
"""


class Page:
    """A page of Markdown: its source, its text, and where its HTML goes, below the folder."""

    def __init__(self, source, text, out):
        self.source, self.text, self.out = source, text, out
        self.up = "../" * out.count("/")
        title = re.search(r"^# (.*)", text, re.M)
        self.title = title.group(1).replace("`", "") if title else os.path.basename(source)

    def said(self):
        """The first sentence after the title."""
        paragraph = re.search(r"^# .*\n+((?:[^#\n|!<-].*\n?)+)", self.text, re.M)
        return sentence(" ".join(paragraph.group(1).split()) if paragraph else "")


def read(path):
    with open(path, encoding="utf-8") as file:
        return file.read()


def sentence(text):
    """The first sentence of a text, and the next one where that has a word or two."""
    first = re.match(r".{30,}?[.?](?= |$)|.*", re.sub(r"[`*]", "", text)).group()
    return first[:1].upper() + first[1:]


def version():
    text = read("include/tillerclover.h")
    return ".".join(re.search(rf"#define TILLERCLOVER_INTERFACE_{w} (\d+)", text).group(1) for w in ("MAJOR", "MINOR"))


def pages():
    made = [Page(path, read(path), os.path.splitext(path)[0] + ".html") for path in sorted(glob.glob("*.md"))]
    for path in sorted(glob.glob("docs/**/*.md", recursive=True)):
        made.append(Page(path, read(path), os.path.splitext(path.removeprefix("docs/"))[0] + ".html"))
    # A release has neither the sources nor the tests that this page is made of.
    if os.path.exists("tests/trace.py"):
        matrix = subprocess.run(
            ["tests/trace.py", "--page"], check=True, stdout=subprocess.PIPE, encoding="utf-8"
        ).stdout
        made.append(Page("docs/trace.txt", matrix, "TRACE.html"))
    return made


# ---- links


class Links:
    """What a name in a text leads to."""

    def __init__(self, made, files):
        self.targets = {}
        for page in made:
            self.targets[page.source] = page.out
            self.targets.setdefault(os.path.basename(page.source), page.out)
        for path in files:
            out = os.path.basename(path) + ".html"
            self.targets[path] = self.targets[os.path.basename(path)] = out
            self.targets.update({name: f"{out}#{at}" for name, at in headers.names_of(headers.items(path)[1]).items()})

    def linked(self, text, up, of=None):
        """HTML without tags, in which each name that leads somewhere is a link; not the name that it is the text of."""

        def one(match):
            target = self.targets.get(match.group())
            if target is None or match.group() == of:
                return match.group()
            return f'<a href="{up}{target}">{match.group()}</a>'

        return re.sub(r"(?<![\w./-])(?:[\w-]+/)*[\w-]+(?:\.(?:md|h|txt))?(?![\w-]|/\w|\.\w)", one, text)

    def in_page(self, body, up):
        """The same in HTML with tags: not inside links, headings and blocks of code."""
        out, closed = [], None
        for part in re.split(r"(<[^>]+>)", body):
            tag = re.match(r"<(/?)(a|h\d|pre)\b", part)
            if tag and closed is None and not tag.group(1):
                closed = tag.group(2)
            elif tag and tag.group(1) and tag.group(2) == closed:
                closed = None
            out.append(part if part.startswith("<") or closed else self.linked(part, up))
        return "".join(out)

    def in_comment(self, text, code=False, of=None):
        """The text of a header's comment, or its code, as HTML."""
        if code:
            return self.linked(html.escape(text, quote=False), "", of)
        marked = re.sub(r"`([^`]+)`", r"<code>\1</code>", html.escape(text, quote=False))
        return "".join(p if p.startswith("<") else self.linked(p, "", of) for p in re.split(r"(</?code>)", marked))


# ---- the pages


def converted(page):
    """The body of a page, by pandoc."""
    command = ["pandoc", "--from", "gfm", "--to", "html5", "--wrap", "none"]
    done = subprocess.run(command, input=page.text, check=True, stdout=subprocess.PIPE, encoding="utf-8")
    # the sources' own links; and a picture leads to itself, which is larger on a small screen
    body = re.sub(r'(href="(?!\w+:)[^"#]*)\.md(["#])', r"\1.html\2", done.stdout)
    return re.sub(r'(<img src="([^"]*)"[^>]*>)', r'<a href="\2">\1</a>', body)


def contents(body):
    """The second headings of a long page."""
    found = re.findall(r'<h2 id="([^"]*)">(.*?)</h2>', body)
    if len(found) < 4:
        return ""
    return '<nav class="contents"><ul>' + "".join(f'<li><a href="#{i}">{t}</a></li>' for i, t in found) + "</ul></nav>"


def index(made, files):
    left = {page.out.removesuffix(".html"): page for page in made}
    body = [
        "<h1>Tillerclover: the reference</h1>",
        "<p>The access decision of a weighbridge terminal: the pages of the project, and its C interface.</p>",
    ]

    def group(title, rows):
        listed = "".join(f'<dt><a href="{o}">{html.escape(t)}</a></dt><dd>{html.escape(s)}</dd>' for o, t, s in rows)
        body.append(f"<h2>{title}</h2>\n<dl>{listed}</dl>")

    for title, names in GROUPS:
        rows = [(p.out, p.title, p.said()) for p in (left.pop(name, None) for name in names) if p]
        if title == "The C interface":
            for path in files:
                said = sentence(headers.blocks(headers.items(path)[0])[0][1].removeprefix("Tillerclover: "))
                rows.append((os.path.basename(path) + ".html", os.path.basename(path), said))
            rows.append(("names.html", "All names", "Functions, types and constants from A to Z."))
        group(title, rows)
    landings = [left.pop(name) for name in sorted(left, key=in_order) if name.startswith("landings/")]
    if left:
        group("More pages", [(p.out, p.title, p.said()) for p in left.values()])
    group("How each step landed", [(p.out, p.title, "") for p in landings])
    return "\n".join(body)


def in_order(name):
    """U2 before U10."""
    return [int(part) if part.isdigit() else part for part in re.split(r"(\d+)", name)]


def names(files):
    """Every function, type and constant of the headers, by its name, with a link and the first sentence of its comment."""
    listed = {}
    for path in files:
        for item in headers.items(path)[1]:
            if item.name and item.kind != "section":
                listed[item.name] = (path, headers.first_sentence(item.comment))
            if item.kind == "enum":
                listed.update({name: (path, headers.first_sentence(said)) for name, _, said in item.members})
    rows = [
        f'<li><a href="{os.path.basename(path)}.html#{name}"><code>{name}</code></a> {html.escape(said.replace("`", ""))}</li>'
        for name, (path, said) in sorted(listed.items(), key=lambda row: row[0].lower())
    ]
    return "<h1>All names of the C interface</h1>\n<ul>" + "\n".join(rows) + "</ul>"


def write(path, text):
    os.makedirs(os.path.dirname(path), exist_ok=True)
    with open(path, "w", encoding="utf-8") as file:
        file.write(text)


def build(folder):
    made, files = pages(), sorted(glob.glob("include/*.h"))
    links, shell = Links(made, files), {"version": version()}
    with concurrent.futures.ThreadPoolExecutor(2) as threads:
        bodies = list(threads.map(converted, made))
    for page, body in zip(made, bodies):
        head, end, rest = body.partition("</h1>")
        body = head + end + contents(body) + links.in_page(rest, page.up)
        write(f"{folder}/{page.out}", SHELL.format(title=html.escape(page.title), up=page.up, body=body, **shell))
    for path in files:
        title, body = headers.page(path, links.in_comment)
        write(f"{folder}/{title}.html", SHELL.format(title=title, up="", body=body, **shell))
    write(f"{folder}/names.html", SHELL.format(title="All names", up="", body=names(files), **shell))
    write(f"{folder}/index.html", SHELL.format(title="Tillerclover", up="", body=index(made, files), **shell))
    shutil.copy(f"{HERE}/style.css", f"{folder}/style.css")
    for path in glob.glob("docs/*.svg") + glob.glob("docs/pictures/*.png") + glob.glob("docs/pictures/*.svg"):
        os.makedirs(os.path.dirname(f"{folder}/{path.removeprefix('docs/')}"), exist_ok=True)
        shutil.copy(path, f"{folder}/{path.removeprefix('docs/')}")
    print(f"docs: {len(made)} pages and {len(files)} headers, {folder}/index.html")


def main(words):
    if len(words) == 2 and words[0] == "--man3":
        for path in sorted(glob.glob("include/*.h")):
            for name, text in headers.manual(path, version()):
                write(f"{words[1]}/{name}", text)
        return 0
    if len(words) != 1 or words[0].startswith("-"):
        print(__doc__.strip(), file=sys.stderr)
        return 2
    if not shutil.which("pandoc"):
        print("docs: pandoc is not there; Debian has it: apt-get install pandoc", file=sys.stderr)
        return 1
    build(words[0])
    return 0


if __name__ == "__main__":
    sys.exit(main(sys.argv[1:]))
