"""What a reader must believe stands in specs/: used by tests/documents.py.

No file of specs/ uses one of proofs/. Each name in the statement of a theorem that PROOFS.md names is defined in specs/, in the kit, or is
a type that code declares; a short form of the same file, which no other file sees, is read as what it stands for. An example is of rows,
tables and runs that stand beside it: a statement in a file of examples may name these too.
"""
import glob
import os
import re

from antt import File, Project, path_of, variables, words_of
from sources import fault


def is_examples(path):
    """A file of examples, or of what they are made of."""
    return "/rules_examples/" in path or re.search(r"Examples|Sample", os.path.basename(path)) is not None


def check_specs():
    for path in sorted(glob.glob("crates/*/specs/**/*.antt", recursive=True)):
        uses = File(path).uses
        for module in sorted({module for module, _ in uses.names.values()} | set(uses.aliases.values())):
            if "/proofs/" in (path_of(module) or ""):
                fault(f"{path} uses {module}, which stands in proofs/")


def named(project, path, text, seen):
    """The files and names that a text of the file means; a short form that no other file sees is read as what it stands for."""
    file, bound = project.file(path), variables(text)
    for word in words_of(text):
        home, name = project.meaning(path, file.uses, word, bound) or (None, None)
        forms = [short for short in file.declared(name) if short.short] if home == path else []
        if not forms:
            yield home, name
        elif name not in seen:
            for short in forms:
                yield from named(
                    project, path, f"{short.statement}\n{short.body}".replace(f"\n{name} ", "\n"), seen | {name}
                )


def check_statement(project, path, name):
    """A theorem's statement, with the parameters of the modules around it."""
    for declaration in project.file(path).declared(name):
        text = "\n".join(declaration.around + [declaration.statement])
        for home, there in sorted(set(named(project, path, text, frozenset())), key=str):
            if (
                home
                and "/proofs/" in home
                and not (is_examples(path) and is_examples(home))
                and (home, there) != (path, name)
            ):
                fault(f"PROOFS.md: the statement of {name} names {there}, and that stands in {home}")


def check_statements(theorems):
    """Of (file, name) of each theorem."""
    check_specs()
    project = Project()
    for path, name in sorted(set(theorems)):
        if "/proofs/" in path:
            check_statement(project, path, name)
