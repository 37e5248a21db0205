#!/usr/bin/env python3
"""One page of its parts: build.py MODULE.wasm PAGE.html [WEB], with the folder of the parts if it is another"""
import base64
import gzip
import hashlib
import pathlib
import sys

WEB = pathlib.Path(__file__).parent / "web"
SCRIPTS = ["engine", "parts", "clock", "rights", "tables", "ask", "yards", "lists", "journal", "start"]


def digest(text):
    return base64.b64encode(hashlib.sha256(text.encode()).digest()).decode()


def main(module, target, web=WEB):
    style = (web / "page.css").read_text()
    script = "\n".join((web / f"{name}.js").read_text() for name in SCRIPTS)
    assert "</script" not in script and "</style" not in style
    packed = gzip.compress(module.read_bytes(), 9, mtime=0)
    parts = {
        "@SCRIPT_HASH@": digest(script),
        "@STYLE_HASH@": digest(style),
        "@STYLE@": style,
        "@SCRIPT@": script,
        "@TABLES@": "",
        "@WASM@": base64.b64encode(packed).decode(),
    }
    page = (web / "page.html").read_text()
    for mark, text in parts.items():
        assert page.count(mark) == 1, mark
        page = page.replace(mark, text)
    target.write_text(page)
    print(
        f"{target}: {len(page.encode()):,} bytes, of them the module {module.stat().st_size:,}, packed {len(packed):,}"
    )


if __name__ == "__main__":
    main(*map(pathlib.Path, sys.argv[1:]))
