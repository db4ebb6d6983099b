"""Follows names: from a contract, or a type, to every definition and type that it rests on."""

import re
from dataclasses import dataclass, field

from items import functions_named
from sources import INSIDE, Unread

WORD = re.compile(r"[^\s(){}\[\],;.\"\\`]+")
TEXT = re.compile(r'"(?:[^"\\]|\\.)*"')
READ = re.compile(r"\.([^\W\d]\w*)")
TYPE_NAME = re.compile(r"\b[A-Z]\w*")


@dataclass
class Closure:
    """What something rests on: the definitions and types in the order in which they are reached, and the names of the
    kit's library."""
    definitions: list = field(default_factory=list)
    types: list = field(default_factory=list)
    library: list = field(default_factory=list)

    @property
    def size(self):
        """The lines of all definitions."""
        return sum(found.size for found in self.definitions)

    @property
    def files(self):
        """The files of the definitions."""
        return list(dict.fromkeys(found.place for found in self.definitions))


class Names:
    """Finds what a name means, where it stands."""

    def __init__(self, sources):
        self.sources, self.crates = sources, sources.crates
        self.constructors = {key: spec.constructors() for key, spec in sources.specs.items()}

    def declared(self, path, name):
        """A type of src/ that specs name by the path of its declaration."""
        crate, parts = path[1], path[4:]
        inside = parts[-1] if parts and parts[-1] in INSIDE else None
        parts = parts[:-1] if inside else parts
        wanted = parts[-1] if inside and inside != "TheConstants" else name
        modules = self.sources.types_named(crate, wanted)
        exact = [module for module in modules if re.split(r"[/.]", module.file)[-2] in parts]
        if not modules:
            raise Unread("no type %s of crate %s is found: %s" % (wanted, crate, ".".join(path)))
        return (exact or modules)[0].types[wanted]

    def imported(self, path, name):
        """What a name of a module means."""
        parts = path.split(".")
        if parts[0] != "Rattle" or parts[1] not in self.crates:
            return (path, name)
        if parts[3:4] == ["declared"]:
            return self.declared(parts, name)
        spec = self.sources.specs.get((parts[1], ".".join(parts[3:])))
        found = spec and self.in_spec(spec, name)
        if not found:
            raise Unread("no definition is found of %s.%s" % (path, name))
        return found

    def in_spec(self, spec, name):
        """What a name means in a spec, None where it is a variable."""
        found = spec.definitions.get(name) or self.constructors[spec.crate, spec.file].get(name)
        if found:
            return found
        return self.imported(*spec.imports[name]) if name in spec.imports else self.operator(spec.imports, name)

    def operator(self, imports, name):
        """What an operator means, which is imported with `◌` for its arguments; None where it is none."""
        found = [path for here, path in imports.items() if "◌" in here and here.replace("◌", "") == name]
        return self.imported(*found[0]) if found else None

    def in_contract(self, module, text):
        """What the names of a contract mean."""
        text = TEXT.sub(" ", text)
        words = [found[0] for found in WORD.finditer(text) if text[found.start() - 1:found.start()] != "."]
        means = [self.imported(*module.ghosts[word]) if word in module.ghosts else self.operator(module.ghosts, word)
                 for word in words]
        return [found for found in means if found]

    def view_of(self, place, name):
        """What the view of a type with a model names, which reads its value from what it keeps."""
        crate, _, file = place.partition("/")
        module = self.sources.modules.get((crate, file))
        if not module or name not in module.models:
            raise Unread("%s has no model of %s" % (place, name))
        return self.in_contract(module, module.model_part(name, "view"))

    def in_code(self, module, text):
        """The types that a piece of code names."""
        return [found for found in (self.type_of(module, name) for name in TYPE_NAME.findall(text)) if found]

    def type_of(self, module, name):
        """The type that a name of code means, None where it is the library's or a parameter."""
        if name in module.types:
            return module.types[name]
        path, there = module.uses.get(name, ("", name))
        crate = module.crate if path.split("::")[0] == "crate" else path.split("::")[0]
        modules = self.sources.types_named(crate, there)
        return modules[0].types[there] if modules else None


def meanings(names, spec, definition):
    """What the names of a definition mean, in their order. A variable or field that is named as a definition counts as
    that one: too much is reached rather than too little."""
    text = TEXT.sub(" ", "\n".join(definition.lines))
    try:
        found = [meaning_at(names, spec, text, at) for at in WORD.finditer(text)]
    except Unread as unread:
        raise Unread("%s of %s: %s" % (definition.name, definition.place, unread)) from None
    return [means for means in found if means is not None and means is not definition]


def meaning_at(names, spec, text, at):
    """What a word of a definition means, None for a member, a variable, or what is the language's own."""
    if text[at.start() - 1:at.start()] == ".":
        return None
    if text[at.end():at.end() + 1] == "." and at[0] in spec.modules:
        member = WORD.match(text, at.end() + 1)
        return names.imported(spec.modules[at[0]], member[0]) if member else None
    return names.in_spec(spec, at[0])


def type_meanings(names, of, reads):
    """What a type rests on. One with a model is seen as its value; where it is opened, also by its view and by those of
    its fields that are read."""
    module = names.sources.modules[of.crate, of.file]
    if reads is None and of.name in module.models:
        return names.in_contract(module, module.model_part(of.name, "Value"))
    if of.kind == "trait":
        return [found for clause in of.clauses() for found in names.in_contract(module, clause.said)]
    model = " ".join(module.model_part(of.name, part) for part in ("Value", "view"))
    code = "\n".join(of.code()) if reads is None else of.code_that_reads(reads)
    return names.in_contract(module, model) + (names.in_code(module, code) if of.kind != "type" else [])


def closure(names, starts, reads=None):
    """All that these rest on, each before what it first names itself. Types with a model are opened where it is told
    which fields are read."""
    reached, seen, waiting = Closure(), set(), list(reversed(starts))
    while waiting:
        now = waiting.pop()
        key = now if isinstance(now, tuple) else id(now)
        if key in seen:
            continue
        seen.add(key)
        if isinstance(now, tuple):
            reached.library.append(now)
        elif hasattr(now, "kinds"):
            reached.definitions.append(now)
            waiting += reversed(meanings(names, names.sources.specs[now.crate, now.file], now))
        else:
            reached.types.append(now)
            waiting += reversed([found for found in type_meanings(names, now, reads) if found is not now])
    return reached


def fields_read(names, reached):
    """The fields that definitions and views read."""
    texts = ["\n".join(found.lines) for found in reached.definitions]
    texts += [names.sources.modules[of.crate, of.file].model_part(of.name, "view") for of in reached.types]
    return {name for text in texts for name in READ.findall(TEXT.sub(" ", text))}


def opened(names, starts):
    """All that these rest on, with each type opened, by the fields that are read."""
    reads = set()
    while True:
        reached = closure(names, starts, reads)
        found = fields_read(names, reached)
        if found <= reads:
            return reached
        reads |= found


@dataclass
class Contract:
    """A public function of src/ with its contract: the file where it stands, and what its clauses and types name."""
    module: object
    function: object
    starts: list

    @property
    def name(self):
        """The function's name."""
        return self.function.name

    @property
    def text(self):
        """The signature with its clauses."""
        return self.function.text

    @property
    def comment(self):
        """The function's comment, without the marks before its lines."""
        return "\n".join(line[3:].strip() for line in self.function.comment.split("\n"))

    def code(self):
        """Its lines."""
        return self.text.split("\n")

    @property
    def key(self):
        """By what sections name it: its file, as crate/file.rt, and its name."""
        return ("%s/%s" % (self.module.crate, self.module.file), self.name)

    @property
    def premises(self):
        """What it requires of its caller, as it is written."""
        return ["    " + clause.written for clause in self.function.premises]


def contract_of(names, place, function):
    """The contract of a function of a file, which is given as crate/file.rt."""
    crate, _, file = place.partition("/")
    module = names.sources.modules.get((crate, file))
    found = module and next((found for found in functions_named(module.text, function) if found.is_public), None)
    if not found:
        raise Unread("%s has no public function %s" % (place, function))
    try:
        starts = names.in_contract(module, found.text) + names.in_code(module, found.signature)
    except Unread as unread:
        raise Unread("%s of %s: %s" % (function, place, unread)) from None
    return Contract(module, found, starts)
