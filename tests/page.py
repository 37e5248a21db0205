#!/usr/bin/env python3
"""Reads the page of `rights --html` and holds it to the JSON of `rights`.

    tests/page.py PAGE JSON NAME [YARDS]

The page is well formed, has no script and needs no other file, is light and dark and has rules for print, and its table
says for each sender and resource what the JSON says. With the JSON of `yards` it says the same of these. Exit status 1: a line for each thing that is not so.
"""
import html.parser
import json
import sys

faults = []
VOID = {"meta", "br", "hr", "img", "link", "input"}


class Page(html.parser.HTMLParser):
    """Checks that tags are closed in order, and collects the text, the tables and the attributes."""

    def __init__(self):
        super().__init__(convert_charrefs=True)
        self.open, self.text, self.tables, self.tags, self.attributes = [], [], [], set(), []

    def handle_starttag(self, tag, attrs):
        self.tags.add(tag)
        self.attributes += [(tag, name, value) for name, value in attrs]
        if tag not in VOID:
            self.open.append(tag)
        if tag == "table":
            self.tables.append([])
        elif tag == "tr":
            self.tables[-1].append([])
        elif tag in ("td", "th"):
            self.tables[-1][-1].append("")

    def handle_endtag(self, tag):
        if not self.open or self.open.pop() != tag:
            faults.append(f"</{tag}> closes something else")

    def handle_data(self, data):
        if "style" in self.open:
            return
        self.text.append(data)
        if {"td", "th"} & set(self.open):
            row = self.tables[-1][-1]
            row[-1] = (row[-1] + " " + data.strip()).strip()


def letters(permission):
    return permission["letters"].replace("-", "")


def cell(cell):
    if not cell["served"]:
        return "not served"
    parts = [letters(cell["now"]) or "\u2013"]
    parts += [
        f"{letters(cell[key])} {word}" for key, word in (("over", "over"), ("to_come", "to come")) if letters(cell[key])
    ]
    return " ".join(parts)


def sender(sender):
    if sender["kind"] == "credential":
        return f"Credential {sender['number']} {sender['subject']}"
    if sender["kind"] == "clear":
        return "Anybody, in clear"
    return f"Any credential that asserts role {sender['role']}@{sender['authority']}"


def yards_are_said(yards, enders, said):
    expected = [
        [
            yard["name"],
            ", ".join(map(str, yard["senders"])),
            "isolated" if yard["isolated"] else f"not isolated : {yard['reason']['words']}",
        ]
        for yard in said["yards"]
    ]
    if yards[1:] != expected:
        faults.append(f"yards {yards[1:]}, and not {expected}")
    expected = [sender(other["sender"]) for other in said["others"] if other["could_end"]]
    if [row[0] for row in enders[1:]] != expected:
        faults.append(f"could end it: {enders[1:]}, and not {expected}")


def main():
    with open(sys.argv[1], encoding="utf-8") as file:
        source = file.read()
    with open(sys.argv[2], encoding="utf-8") as file:
        rights = json.load(file)
    page = Page()
    page.feed(source)
    page.close()
    if page.open:
        faults.append(f"not closed: {page.open}")
    for tag in page.tags & {"script", "link", "img", "iframe", "object"}:
        faults.append(f"the page has a <{tag}>")
    faults.extend(
        f"<{tag} {name}>" for tag, name, _ in page.attributes if name in ("src", "href") or name.startswith("on")
    )
    for needed in ("prefers-color-scheme: dark", "color-scheme: light dark", "@media print", "@page"):
        if needed not in source:
            faults.append(f"no '{needed}'")
    if "url(" in source or "@import" in source or "http" in source:
        faults.append("the page needs another file")
    text = " ".join(" ".join(page.text).split())
    for needed in (
        sys.argv[3],
        "RFNOP, ready for normal operation",
        "season over",
        "any holder may assert any role",
        "sha256",
    ):
        if needed not in text:
            faults.append(f"not said: {needed}")
    names = [name.rsplit("/", 1)[-1] for name in rights["senders"][0]["resources"]]
    found = page.tables[0]
    # JSON sorts the resources by name, the page by number.
    order = [names.index(name) for name in found[0][1:]]
    for row, line in zip(found[1:], rights["senders"]):
        cells = [cell(one) for one in line["resources"].values()]
        expected = [sender(line["sender"])] + [cells[place] for place in order]
        if row != expected:
            faults.append(f"row {row}, and not {expected}")
    if len(found) != len(rights["senders"]) + 1:
        faults.append(f"{len(found) - 1} senders, and not {len(rights['senders'])}")
    if len(sys.argv) > 4:
        with open(sys.argv[4], encoding="utf-8") as file:
            yards_are_said(page.tables[1], page.tables[2], json.load(file))
    for fault in faults:
        print("page:", fault)
    return 1 if faults else 0


sys.exit(main())
