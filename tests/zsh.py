#!/usr/bin/env python3
"""Prints what zsh makes of a line when the tab key is pressed after it.

    tests/zsh.py FOLDER LINE      FOLDER has the functions that complete

zsh completes only what somebody types, so it gets a terminal of its own.
"""
import os
import pty
import select
import sys
import time

PATIENCE = 30


def main():
    folder, line = os.path.abspath(sys.argv[1]), sys.argv[2]
    child, terminal = pty.fork()
    if child == 0:
        os.environ.update(TERM="dumb")
        os.execvp("zsh", ["zsh", "-f", "-i"])
    seen = b""

    def until(mark):
        nonlocal seen
        end = time.time() + PATIENCE
        while mark not in seen and time.time() < end:
            if select.select([terminal], [], [], 0.1)[0]:
                seen += os.read(terminal, 4096)

    def say(text):
        os.write(terminal, text.encode())

    say(f"PS1=; fpath=({folder} $fpath); autoload -U compinit; compinit -u -D; echo re''ady\n")
    until(b"ready\r\n")
    # the line is completed, put between quotes and printed
    say(f"{line}\t")
    say("\x01print -r '\x05'; echo do''ne\n")
    until(b"\ndone")
    said = seen.decode("utf-8", "replace").replace("\r", "").split("\n")
    print("\n".join(part.rstrip() for part in said[1:] if part.startswith("tillerclover")))
    say("exit\n")
    return 0


sys.exit(main())
