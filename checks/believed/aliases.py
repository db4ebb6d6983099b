"""What a name means where it stands: names that several things have, and other names under which a file imports one."""

import re
from collections import defaultdict

from closure import TEXT, WORD
from sources import INSIDE


# Where a word of the library stands.
OF_LIBRARY = "the words of the library"


def ambiguous(reached):
    """The names that several definitions, types or words of the library have, each with the places of these."""
    places = defaultdict(set)
    for part in reached.parts:
        for found in part.definitions:
            places[found.name].add("%s/specs/%s.antt" % (found.crate, found.file))
        for found in part.types:
            places[found.name].add("%s/src/%s" % (found.crate, found.file))
    for name in reached.library & set(places):
        places[name].add(OF_LIBRARY)
    return {name: sorted(found) for name, found in sorted(places.items()) if len(found) > 1}


def place_of(path):
    """What an import's path names: of a file of specs/ its crate and file, of a declaration its crate and type."""
    parts = path.split(".")
    if parts[3] != "declared":
        return "`%s`" % "/".join([parts[1], ".".join(parts[3:])])
    inside = [part for part in parts[4:] if part not in INSIDE]
    if parts[-1] in INSIDE and inside and inside[-1][0].isupper():
        return "type `%s` of `%s`" % (inside[-1], parts[1])
    return "`%s`" % parts[1]


def is_of_project(path):
    """Whether a path is one of the project's crates."""
    parts = path.split(".")
    return parts[0] == "Rattle" and len(parts) > 3 and parts[1] not in ("std", "core", "hex")


def words_in(text):
    """The words of definitions or of a contract."""
    return {found[0] for found in WORD.finditer(TEXT.sub(" ", text))}


def members(module, text):
    """The names that stand behind a module's other name."""
    return re.findall(r"(?<![\w.])%s\.(\w+)" % re.escape(module), TEXT.sub(" ", text))


def explained(imports, modules, text, several):
    """What each name of a text means that is imported under another one, or that several things have."""
    used = words_in(text)
    for here, (path, name) in sorted(imports.items()):
        if here not in used or not is_of_project(path):
            continue
        if here != name:
            yield "`%s` is `%s` of %s" % (here, name, place_of(path))
        elif name in several:
            yield "`%s` is that of %s" % (name, place_of(path))
    for here, path in sorted(modules.items()):
        if members(here, text) and is_of_project(path):
            yield "`%s.` stands before names of %s" % (here, place_of(path))


def line_of(meanings):
    """These in a sentence, none where there are none."""
    meanings = list(meanings)
    return ["Here %s." % ", ".join(meanings)] if meanings else []


def meant_in_spec(spec, definitions, several):
    """A sentence that says what names of some definitions of a file mean."""
    text = "\n".join(line for found in definitions for line in found.lines)
    return line_of(explained(spec.imports, spec.modules, text, several))


def meant_in_contract(contract, several):
    """The same of a contract."""
    return line_of(explained(contract.module.ghosts, {}, contract.text, several))


def renamed(sources, reached):
    """Each import under another name that the page has, as file, name there and name here."""
    for part in reached.parts:
        for place in part.files:
            spec = sources.specs[tuple(place.split("/"))]
            text = "\n".join(line for found in part.definitions if found.place == place for line in found.lines)
            for here, (path, name) in spec.imports.items():
                if here != name and here in words_in(text) and is_of_project(path):
                    yield place, "%s of %s" % (name, place_of(path)), here
