"""Reads the sources of the crates: the definitions of specs/ here, the files of src/ by items.py."""

import os
import re
from dataclasses import dataclass, field
from functools import cache

from items import names_listed, read_module

KEYWORDS = {"abbrev", "unfoldable", "opaque", "pub", "record", "data", "lemma", "mod", "def"}
INSIDE = ("TheVariants", "TheConstants", "TheInside", "TheFields")
# The words behind which a name is declared, and a name before its type.
DECLARED = re.compile(r"(?:^(?:\w+ )*(?:record|data)|\b(?:pub|mod))\s+(?=(\w+))|^(?:abbrev )?(\w+) :", re.M)


class Unread(Exception):
    """A source that has another form than the ones that are known here."""


@dataclass
class Definition:
    """A definition of specs/: where it stands, its lines without comments, and its lines as they are written."""
    crate: str
    file: str
    name: str
    kinds: list
    first: int
    last: int = 0
    lines: list = field(default_factory=list)
    written: str = ""
    is_explained: bool = False

    @property
    def place(self):
        """Its crate and file."""
        return "%s/%s" % (self.crate, self.file)

    @property
    def size(self):
        """Its lines, without blank ones and comments."""
        return sum(1 for line in self.lines if line.strip())

    def constructors(self):
        """The constructors of a data type."""
        found = [re.match(r"\s+(\S+)\s*:", line) for line in self.lines[1:] if "data" in self.kinds]
        return [constructor[1] for constructor in found if constructor]


@dataclass
class Spec:
    """A file of specs/: its head comment, what it imports by name and as a whole, and its definitions by name."""
    crate: str
    file: str
    raw: list
    head: str = ""
    imports: dict = field(default_factory=dict)
    modules: dict = field(default_factory=dict)
    definitions: dict = field(default_factory=dict)

    def constructors(self):
        """Each constructor of its data types, with the type."""
        return {name: found for found in self.definitions.values() for name in found.constructors()}


def without_comment(line):
    """A line of a spec without the comment that begins with `--`."""
    in_text = False
    for at, letter in enumerate(line):
        if letter == '"':
            in_text = not in_text
        if not in_text and line.startswith("--", at) and (at == 0 or line[at - 1].isspace()):
            return line[:at].rstrip()
    return line.rstrip()


def comment_start(raw, line):
    """Where the comment above a line begins, that line itself where it has none; both counted from 0."""
    while line > 0 and raw[line - 1].startswith("--"):
        line -= 1
    return line


def head_size(raw):
    """How many lines the comment at the head of a file has."""
    return next((at for at, line in enumerate(raw) if not line.startswith("--")), len(raw))


def read_import(spec, line):
    """A `use` of a spec: of names, or of a file as a whole. What is passed on (`pub use`) is found by its name too."""
    names = re.fullmatch(r"use ([\w.]+?)\.\{(.*)\}", line)
    whole = re.fullmatch(r"use ([\w.]+) as (\w+)", line)
    if names:
        spec.imports.update({here: (names[1], name) for name, here in names_listed(names[2])})
    elif whole:
        spec.modules[whole[2]] = whole[1]
    else:
        raise Unread("%s/%s: not understood: %s" % (spec.crate, spec.file, line))


def head_of(line):
    """The words before the name that a line defines, and that name; None where it defines none."""
    words = line.split()
    kinds = [word for at, word in enumerate(words) if set(words[:at + 1]) <= KEYWORDS]
    return (kinds, words[len(kinds)]) if kinds and len(words) > len(kinds) else None


def read_line(spec, at, line, now):
    """Reads one line that is no comment, within or after a definition, and answers the definition that it is in."""
    taken = line.removeprefix("pub ")
    if taken.startswith("use "):
        read_import(spec, taken)
        return None
    head = None if line[0].isspace() or line[0] in "})" else head_of(line)
    if head and "mod" in head[0]:
        return None
    if head:
        now = spec.definitions[head[1]] = Definition(spec.crate, spec.file, head[1], head[0], at)
    elif not line[0].isspace() and line[0] not in "})":
        now = spec.definitions.get(line.split()[0], now)
    if now is None:
        raise Unread("%s/%s.antt:%d: not understood: %s" % (spec.crate, spec.file, at + 1, line))
    now.lines.append(line)
    now.last = at
    return now


def explain(spec):
    """Says of each definition whether a comment of its own explains it, or the file's head where it is alone there; and
    keeps it as it is written, with that comment."""
    top = head_size(spec.raw)
    for found in spec.definitions.values():
        begin = max(comment_start(spec.raw, found.first), top)
        found.is_explained = begin < found.first or len(spec.definitions) == 1 and bool(spec.head)
        found.written = "\n".join(spec.raw[begin:found.last + 1]).rstrip()


def read_spec(crate, file, text):
    """A file of specs/."""
    spec = Spec(crate, file, text.split("\n"))
    spec.head = " ".join(line[2:].strip() for line in spec.raw[:head_size(spec.raw)])
    now = None
    for at, line in enumerate(map(without_comment, spec.raw)):
        if line.strip():
            now = read_line(spec, at, line, now)
    explain(spec)
    return spec


@cache
def declared(text):
    """The names of what a text of specs/ declares: definitions, lemmas, modules, and fields that are public."""
    return {name for names in DECLARED.findall(text) for name in names if name}


def fields_of(text, record):
    """The public fields of a record of a text of specs/."""
    bodies = re.findall(r"^pub record %s\b.*?\n(.*?)(?=^\S|\Z)" % re.escape(record), text, re.M | re.S)
    return [name for body in bodies for name in re.findall(r"^\s+pub (\w+) :", body, re.M)]


@dataclass
class Sources:
    """All that was read: the specs by crate and file, the files of src/ by the same."""
    specs: dict
    modules: dict

    @property
    def crates(self):
        """The names of all crates."""
        return {crate for crate, _ in list(self.specs) + list(self.modules)}

    def text_of(self, place):
        """The files of src/ of a crate, or one of them, as a document cites them: crate, or crate/src/file."""
        crate, _, file = place.partition("/src/")
        return "\n".join(module.text for (of, at), module in self.modules.items() if of == crate and file in ("", at))

    def types_named(self, crate, name):
        """The files of a crate that have a type of that name."""
        return [module for (of, _), module in self.modules.items() if of == crate and name in module.types]


def files_below(folder, suffix):
    """The files below a folder with that suffix, each by its path within the folder."""
    found = [os.path.relpath(os.path.join(path, name), folder) for path, _, names in os.walk(folder)
             for name in names if name.endswith(suffix)]
    return sorted(found)


def contents(path):
    """The text of a file."""
    with open(path, encoding="utf-8") as file:
        return file.read()


def read_sources(crates):
    """The sources of all crates below a folder."""
    sources = Sources({}, {})
    for crate in sorted(os.listdir(crates)):
        specs, src = (os.path.join(crates, crate, name) for name in ("specs", "src"))
        for path in files_below(specs, ".antt"):
            file = path[:-len(".antt")].replace(os.sep, ".")
            sources.specs[crate, file] = read_spec(crate, file, contents(os.path.join(specs, path)))
        for path in files_below(src, ".rt"):
            sources.modules[crate, path] = read_module(crate, path, contents(os.path.join(src, path)))
    return sources
