"""What the tests of documents know of .antt files: the names that a file brings by `use`, what it declares, and the statement of each.

A word of a statement is found through the `use` lines of its file, and never by its spelling alone.
"""
import re

from sources import crates, read

# the crates of this repository; `Rattle.std` and others of that form are the kit's
OWN = set(crates())

# the start of a declaration: indentation, how it unfolds, `pub`, the kind of type, the name, the rest of the line
DECLARED = re.compile(r"^( *)(unfoldable |abbrev )?(pub )?(?:(record|data) )?([^\s(){}:]+)(?= |$)(.*)$")
# a word, with the words that follow a dot right after it, as in `alias.name`
WORD = re.compile(r"[^\s(){};,.:λ→=]+(?:\.[^\s(){};,.:λ→=]+)*")
# a field that is read, as in `(f x).tables`, is no name of a definition
FIELD = re.compile(r"(?<=[\s)])\.[\w′-]+")


def path_of(module):
    """The file of a module of this project; None for the modules of the kit and of std, and for those that Rattle makes of the code."""
    match = re.fullmatch(r"Rattle\.(\w+)\.(specs|proofs)\.([\w.+]+)", module)
    if not match or match.group(1) not in OWN or match.group(3).startswith(("declared.", "contracts.")):
        return None
    return f"crates/{match.group(1)}/{match.group(2)}/{match.group(3).replace('.', '/')}.antt"


def without_comments(text):
    return re.sub(r"(?m) -- .*$", "", re.sub(r"(?m)^ *(?:--|//).*\n?", "", text))


class Uses:
    """The names that the `use` lines of a text bring, each with its module and its name there; and the modules that have an alias."""

    def __init__(self, text, word="use"):
        self.names, self.aliases, self.passed_on = {}, {}, set()
        line = rf"^ *(?:unfoldable )?(pub )?{word} ([^\s{{;]+?)(?:\.\{{(.*?)\}}| as (\S+?))?;?$"
        for passed, module, names, alias in re.findall(line, text, re.M | re.S):
            if alias:
                self.aliases[alias] = module
            for entry in re.split(r",\s*", names.strip().rstrip(",")) if names else []:
                there, _, here = entry.strip().partition(" as ")
                self.bring(here or there, module, there, bool(passed))

    def bring(self, here, module, there, passed):
        self.names[here] = (module, there)
        if passed:
            self.passed_on.add(here)
        # an operator, as `◌++◌`, is written between its arguments
        if here.startswith("◌") or here.endswith("◌"):
            for part in filter(None, here.split("◌")):
                self.names.setdefault(part, (module, there))

    def find(self, word):
        """The module and the name there that a word means, or None."""
        first, _, rest = word.partition(".")
        if rest and first in self.aliases:
            return self.aliases[first], rest.split(".")[0]
        return self.names.get(word) or self.names.get(first)


class Declaration:
    """A name, whether it is a short form that no other file sees, its statement (of a record with its fields), what follows the statement,
    and the parameters of the modules around it."""

    def __init__(self, name, indent, short, statement, around):
        self.name, self.indent, self.short, self.around = name, indent, short, around
        self.statement, self.body, self.told = statement, "", False

    def add(self, line):
        if self.told:
            self.body += "\n" + line
        else:
            self.statement += "\n" + line


class File:
    """An .antt file: its `use` lines, and its declarations in their order."""

    def __init__(self, path):
        self.path, self.text = path, without_comments(read(path))
        self.uses, self.declarations = Uses(self.text), []
        self.parse()

    def parse(self):
        lines, modules, current = iter(self.text.split("\n")), [], None
        for line in lines:
            indent, words = len(line) - len(line.lstrip()), line.split()
            if not words:
                continue
            if "use" in words[:3] or "mod" in words[:2]:
                while "{" in line and "}" not in line:
                    line = next(lines)
                current = None
                continue
            modules = [(at, text) for at, text in modules if at < indent]
            if words[0] == "module":
                while not line.rstrip().endswith("where"):
                    line += "\n" + next(lines)
                modules.append((indent, line))
                current = None
                continue
            if current and indent > current.indent:
                current.add(line)
                continue
            match = DECLARED.match(line)
            if match and (match.group(4) or re.match(r" :( |$)", match.group(6))):
                short = match.group(2) == "abbrev " and not match.group(3)
                current = Declaration(match.group(5), indent, short, match.group(6), [text for _, text in modules])
                self.declarations.append(current)
            elif current:
                # what is unfolded, or a clause
                current.told = True
                current.add(line)

    def declared(self, name):
        return [declaration for declaration in self.declarations if declaration.name == name]

    def owner(self, name):
        """The declaration that brings a name: its own, or the type whose constructor it is."""
        own = self.declared(name)
        return own or [
            data for data in self.declarations if re.search(rf"^ +{re.escape(name)} :", data.statement, re.M)
        ]


class Project:
    """The files that were asked for, each read once."""

    def __init__(self):
        self.files = {}

    def file(self, path):
        if path not in self.files:
            self.files[path] = File(path)
        return self.files[path]

    def home(self, path, name):
        """The file that declares a name which `path` exports: itself, or one whose name it passes on; None for the kit."""
        file = self.file(path)
        if name in file.uses.passed_on:
            module, there = file.uses.names[name]
            return self.home(path_of(module), there) if path_of(module) else None
        return path

    def meaning(self, path, uses, word, bound=()):
        """The file and the name that a word means where these names are in use: None for a variable, a word of the language and the kit's."""
        if word in bound or word.split(".")[0] in bound:
            return None
        used = uses.find(word)
        if used:
            file = path_of(used[0])
            home = self.home(file, used[1]) if file else None
            return (home, used[1]) if home else None
        name = word.split(".")[0]
        return (path, name) if path.endswith(".antt") and self.file(path).declared(name) else None


def variables(text):
    """The variables that a text binds."""
    groups = (
        re.findall(r"[({]([^(){}:]+?) : ", text)
        + re.findall(r"λ ([^.()]*?)\.", text)
        + re.findall(r"λ \(([^:()]*?) : ", text)
    )
    return {name for group in groups for name in group.split()} | set(re.findall(r"\blet (\S+)", text))


def words_of(text):
    return WORD.findall(FIELD.sub(" ", text))
