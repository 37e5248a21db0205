"""Holds a file as a running terminal holds its own, while a command runs: python3 held.py FILE COMMAND.."""
import fcntl
import subprocess
import sys

with open(sys.argv[1], "r+b") as file:
    fcntl.lockf(file, fcntl.LOCK_EX)
    sys.exit(subprocess.run(sys.argv[2:]).returncode)
