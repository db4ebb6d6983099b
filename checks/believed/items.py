"""Reads files of Rattle (`.rt`), which `rt fmt` has laid out: what they use, their types and constants with comments
and models, and their functions with comments and contracts. No other module looks for these by patterns."""

import re
from dataclasses import dataclass, field
from functools import cache, cached_property

# What brackets do not count in: a text, a letter, a comment.
APART = r'"(?:[^"\\]|\\.)*"|\'(?:[^\'\\]|\\.)\'|//[^\n]*'
MARK = re.compile(APART + r"|[(){}\[\];]")
PUBLIC = r"(?:pub(?:\([^)]*\))? )?"
TYPE = re.compile(r"^[ \t]*" + PUBLIC + r"(struct|enum|trait|const|type)\s+(?!fn\b)(\w+)", re.M)
MODEL = re.compile(r"^impl(?:<[^>]*>)? Model for (\w+)(?:<[^>]*>)? \{(.*?)^\}", re.M | re.S)
USE = re.compile(r"^\s*(ghost )?(?:pub )?use ([^;]+);", re.M)
FUNCTION = re.compile(r"^( *)(%s)(?:const |unsafe )*fn (\w+)\b" % PUBLIC, re.M)
# A clause of a contract, or a ghost member of a trait, up to its bracket.
CLAUSE = r"\b(?P<kind>requires|ensures\*?|ghost)(?: (?P<name>\w+))?:? \{"
CLAUSES, HEAD = re.compile(APART + "|" + CLAUSE), re.compile(APART + "|" + CLAUSE + r"|[\[{;]")
FIELD = re.compile(r"\s+" + PUBLIC + r"(\w+): ")
VARIANT = re.compile(r"\s+(\w+)\s*(?:\((.*)\)|\{(.*)\})?,?$")
NUMBER = re.compile(PUBLIC + r"const \w+: \w+ = ([\d_]+|0x[\dA-Fa-f_]+);")
# The words behind which a name is declared.
DECLARED = re.compile(r"\b(?:fn|ensures\*?|struct|enum|trait|type|const|mod|pub)\s+(?=(\w+))")


@dataclass
class Clause:
    """A clause of a contract, or a ghost member of a trait: what kind it is, its name, "" where it has none, what
    stands in its brackets, and the whole as it is written."""
    kind: str
    name: str
    said: str
    written: str


@dataclass
class Function:
    """A function: whether all crates may call it, its comment, and its signature and clauses as they are written, at
    the margin."""
    name: str
    is_public: bool
    comment: str
    text: str

    @cached_property
    def clauses(self):
        """What it requires and ensures."""
        return clauses_of(self.text)

    @property
    def signature(self):
        """What stands before its clauses."""
        return self.text.partition(self.clauses[0].written)[0].rstrip() if self.clauses else self.text

    @property
    def premises(self):
        """What it requires."""
        return [clause for clause in self.clauses if clause.kind == "requires"]

    @property
    def promises(self):
        """What it ensures."""
        return [clause for clause in self.clauses if clause.kind != "requires"]

    @property
    def is_law(self):
        """Whether it is a law: a public function that is given nothing and has a contract."""
        is_alone = self.is_public and self.signature.endswith(" %s()" % self.name)
        return is_alone and self.promises != [] and self.premises == []


@dataclass
class Type:
    """A struct, enum, trait, constant or alias of src/, with its comments."""
    crate: str
    file: str
    kind: str
    name: str
    text: str
    comment: str
    # What contracts see it as, by its model; "" where it has none.
    value: str = ""

    @property
    def key(self):
        """By which types are ordered."""
        return (self.crate, self.file, self.name)

    def written(self):
        """Its lines with comments, without attributes. A variant stands with its fields in one line, as a constructor
        of a definition does."""
        lines = [line for line in self.text.strip("\n").split("\n") if not line.strip().startswith("#[")]
        return variants_joined(lines) if lines[0].startswith("pub enum") else lines

    def code(self):
        """Its lines without comments."""
        return [line for line in (line.split("//")[0] for line in self.written()) if line.strip()]

    def code_that_reads(self, names):
        """Its code as a text; of a struct without the fields that have other names than these."""
        lines = [(line, FIELD.match(line)) for line in self.code()]
        return "\n".join(line for line, found in lines if self.kind != "struct" or not found or found[1] in names)

    def clauses(self):
        """The clauses and the ghost members of a trait."""
        return clauses_of(self.text) if self.kind == "trait" else []

    def variants(self):
        """The variants of an enum, each with how many fields it has."""
        found = filter(None, map(VARIANT.match, self.code()[1:]))
        return {variant[1]: len([part for part in (variant[2] or variant[3] or "").split(",") if part.strip()])
                for variant in found}

    def number(self):
        """The number that a constant is; None where it is none."""
        found = NUMBER.fullmatch(self.text.strip())
        return int(found[1].replace("_", ""), 0) if found else None


@dataclass
class Module:
    """A file of src/: its types, what it uses in code and in contracts, and the models of its types."""
    crate: str
    file: str
    text: str
    types: dict = field(default_factory=dict)
    uses: dict = field(default_factory=dict)
    ghosts: dict = field(default_factory=dict)
    models: dict = field(default_factory=dict)

    def model_part(self, name, part):
        """A part of the model of a type: `Value` or `view`; "" where it has none."""
        found = re.search(r"ghost %s = \{(.*?)\};" % part, self.models.get(name, ""), re.S)
        return found[1] if found else ""


def closing(text, at, ends="})]"):
    """Where the first of some marks ends that stands, from a place on, outside of all brackets, or closes the last."""
    depth = 0
    for mark in MARK.finditer(text, at):
        depth += (mark[0] in "{([") - (mark[0] in "})]")
        if depth == 0 and mark[0] in ends:
            return mark.end()
    return len(text)


def variants_joined(lines):
    """The lines of an enum, with each variant that has named fields in one line."""
    joined, is_open = [], False
    for line in lines:
        if is_open:
            joined[-1] = (joined[-1] + " " + line.strip()).replace(", },", " },")
        else:
            joined.append(line)
        begins = line.startswith("    ") and line.endswith("{") and not line.strip().startswith("//")
        is_open = line.strip() != "}," and (is_open or begins)
    return joined


def names_listed(listed):
    """The names of a list in braces, each with the name that it has here."""
    parts = [part.strip().split(" as ") for part in listed.split(",") if part.strip()]
    return [(part[0].strip(), part[-1].strip()) for part in parts]


def comment_above(text, at):
    """The comment of an item whose line begins at a place, its attributes left out."""
    lines = []
    while at > 0:
        begin = text.rfind("\n", 0, at - 1) + 1
        line, at = text[begin:at].strip(), begin
        if not line.startswith(("///", "#[")):
            break
        lines.insert(0, line)
    return "\n".join(line for line in lines if line.startswith("///"))


def clauses_of(text):
    """The clauses of a text, and its ghost members with a type."""
    found, end = [], 0
    while begins := CLAUSES.search(text, end):
        end = begins.end()
        if begins["kind"]:
            end = closing(text, end - 1)
            said, written = text[begins.end():end - 1], text[begins.start():end]
            found.append(Clause(begins["kind"], begins["name"] or "", said, written))
    return found


def head_end(text, at):
    """Where the signature and the clauses of a function end that begins before a place."""
    while mark := HEAD.search(text, at):
        if mark[0] in "{;":
            return mark.start()
        is_bracket = mark["kind"] or mark[0] == "["
        at = closing(text, mark.end() - 1) if is_bracket else mark.end()
    return len(text)


@cache
def functions(text):
    """The functions of a text, in their order."""
    found = []
    for begins in FUNCTION.finditer(text):
        written = text[begins.end(1):head_end(text, begins.end())].rstrip()
        at_margin = "\n".join(line.removeprefix(begins[1]) for line in written.split("\n"))
        found.append(Function(begins[3], begins[2] == "pub ", comment_above(text, begins.start()), at_margin))
    return found


def functions_named(text, name):
    """The functions of a text that have a name, `A::b` being `b`."""
    return [found for found in functions(text) if found.name == name.split("::")[-1]]


@cache
def declared(text):
    """The names of what a text declares: functions, clauses, types, constants, modules, and what is public."""
    return set(DECLARED.findall(text))


def first_sentence(text):
    """The first sentence of the comment at the head of a file; "" where it has none."""
    comment = []
    for line in text.split("\n"):
        if not line.startswith("//!"):
            break
        comment.append(line[3:].strip())
    return re.split(r"(?<=\.)\s", " ".join(comment))[0]


def read_uses(module):
    """What a file of src/ uses: for each name here the path before it and its name there."""
    for is_ghost, path in USE.findall(module.text):
        path = " ".join(path.split())
        found = re.match(r"([\w:.]+?)(?:::|\.)\{(.*)\}$", path)
        if found:
            pairs = [(found[1], name, here) for name, here in names_listed(found[2])]
        else:
            name, _, here = path.partition(" as ")
            before, _, last = name.rpartition("::" if "::" in name else ".")
            pairs = [(before, last, here or last)]
        (module.ghosts if is_ghost else module.uses).update({here: (before, name) for before, name, here in pairs})


def read_module(crate, file, text):
    """A file of src/."""
    module = Module(crate, file, text)
    read_uses(module)
    for found in TYPE.finditer(text):
        written = re.sub(r"\n\s*#\[[^\n]*\]", "", text[found.start():closing(text, found.end(), "};")])
        module.types[found[2]] = Type(crate, file, found[1], found[2], written, comment_above(text, found.start()))
    module.models = {found[1]: found[2] for found in MODEL.finditer(text)}
    for name in set(module.models) & set(module.types):
        module.types[name].value = " ".join(module.model_part(name, "Value").split())
    return module
