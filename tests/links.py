#!/usr/bin/env python3
"""Looks for links that lead nowhere. Exit status 1: a line for each.

    tests/links.py                in the pages of Markdown: relative links, their anchors, and every page that a text names
    tests/links.py FOLDER         in the reference, as `make docs` writes it: every link, picture and anchor
"""
import glob
import html
import html.parser
import os
import re
import subprocess
import sys

# pages of the repository that a text may name without a folder
PLACES = ["", "docs/"]


def read(path):
    with open(path, encoding="utf-8") as file:
        return file.read()


# ---- Markdown


def anchors(text):
    """The anchors of the headings, as forges and pandoc make them."""
    found = set()
    for title in re.findall(r"^#+ (.*)", text, re.M):
        word = re.sub(r"[^\w\- ]", "", title.lower()).replace(" ", "-")
        found.add(word if word not in found else f"{word}-1")
    return found


def in_markdown():
    faults = []
    files = subprocess.run(["git", "ls-files"], check=True, stdout=subprocess.PIPE, text=True).stdout.split("\n")
    for path in (file for file in files if file.endswith(".md")):
        text = read(path)
        for target in re.findall(r"\]\(([^)\s]+)\)", text):
            place, _, anchor = target.partition("#")
            if re.match(r"\w+:", target):
                continue
            there = os.path.normpath(os.path.join(os.path.dirname(path), place)) if place else path
            if not os.path.exists(there):
                faults.append(f"{path}: there is no {target}")
            elif anchor and there.endswith(".md") and anchor not in anchors(read(there)):
                faults.append(f"{path}: {target} names no heading of {there}")
    named = (".md", ".h", ".c", ".py", ".sh", ".rs", ".rt", ".antt", ".txt", ".edit", "Makefile")
    for path in (file for file in files if file.endswith(named) and os.path.exists(file)):
        for name in set(re.findall(r"(?<![\w/.$-])((?:[\w-]+/)*[A-Z][\w-]*\.md)\b", read(path))):
            homes = PLACES + [os.path.dirname(path) + "/"]
            if not any(os.path.exists(home + name) for home in homes) and name not in BY_EXAMPLE:
                faults.append(f"{path}: there is no page {name}")
    return faults


# what a text names that is no page: the place of one
BY_EXAMPLE = {"docs/landings/UNN.md", "docs/NAME.md"}


# ---- HTML


class Page(html.parser.HTMLParser):
    def __init__(self, path):
        super().__init__()
        self.links, self.names, self.twice = [], set(), []
        self.feed(read(path))

    def handle_starttag(self, tag, attributes):
        for key, value in attributes:
            if key in ("href", "src"):
                self.links.append(value)
            elif key == "id":
                if value in self.names:
                    self.twice.append(value)
                self.names.add(value)


def in_html(folder):
    faults = []
    pages = {path: Page(path) for path in glob.glob(f"{folder}/**/*.html", recursive=True)}
    if f"{folder}/index.html" not in pages:
        return [f"{folder} has no index.html"]
    reached, ahead = set(), [f"{folder}/index.html"]
    for path, page in sorted(pages.items()):
        faults += [f"{path}: two parts are called {name}" for name in page.twice]
        for target in page.links:
            place, _, anchor = target.partition("#")
            there = os.path.normpath(os.path.join(os.path.dirname(path), place)) if place else path
            if re.match(r"\w+:", target):
                continue
            if not os.path.exists(there):
                faults.append(f"{path}: there is no {target}")
            elif anchor and anchor not in pages[there].names:
                faults.append(f"{path}: {target} names no part of {there}")
    while ahead:
        path = ahead.pop()
        if path not in reached and path in pages:
            reached.add(path)
            ahead += [os.path.normpath(os.path.join(os.path.dirname(path), t.split("#")[0])) for t in pages[path].links]
    return faults + [f"{path}: no link leads there" for path in sorted(set(pages) - reached)]


def main(words):
    faults = in_html(os.path.normpath(words[0])) if words else in_markdown()
    for line in faults:
        print(f"links: {line}")
    return 1 if faults else 0


if __name__ == "__main__":
    sys.exit(main(sys.argv[1:]))
