"""What definitions and constants say that documents tell again: numbers, words and rows, read from the sources."""

import re
from functools import cache

from closure import Names, meanings
from sources import Definition

ROW = re.compile(r"\((\d+), ")


class Facts:
    """Reads definitions by file and name."""

    def __init__(self, sources):
        self.sources, self.names = sources, Names(sources)

    def spec(self, place):
        """A file of specs/, as crate/File."""
        return self.sources.specs[tuple(place.split("/"))]

    @cache
    def clauses(self, place, name):
        """The cases of a definition: what each is for, and what it gives."""
        found, cases = self.spec(place).definitions[name], []
        for line in found.lines:
            if line.startswith(name + " ") and " = " in line + " ":
                pattern, _, given = line[len(name):].partition(" =")
                cases.append([pattern.strip(" ()"), given.strip()])
            elif cases and line[0].isspace():
                cases[-1][1] += " " + line.strip()
        return [(pattern.split(".")[-1], given.strip()) for pattern, given in cases]

    def text(self, place, name):
        """What a definition gives, in all its cases."""
        return " ".join(given for _, given in self.clauses(place, name))

    def words(self, place, name):
        """The words of a definition that gives one for each case, by what the case is for."""
        found = {pattern.split()[0]: re.match(r'codes "([^"]*)"', given)
                 for pattern, given in self.clauses(place, name)}
        return {pattern: word[1].strip() for pattern, word in found.items() if word}

    def numbers(self, place, name):
        """The numbers of a definition that gives one for each case."""
        return {pattern.split()[0]: int(re.match(r"0x[\dA-Fa-f]+|\d+", given)[0], 0)
                for pattern, given in self.clauses(place, name)}

    def rows(self, place, name):
        """The rows of a table that is a list of numbers, each with what it stands for."""
        text = self.text(place, name)
        before = [(found, text[:found.start()]) for found in ROW.finditer(text)]
        starts = [found for found, front in before if front.count("(") == front.count(")")]
        ends = [found.start() for found in starts[1:]] + [len(text)]
        return {int(found[1]): text[found.end():end] for found, end in zip(starts, ends)}

    @cache
    def constants(self):
        """The constants of all crates that are numbers, by name."""
        numbers = [(of.name, of.number()) for module in self.sources.modules.values() for of in module.types.values()]
        return {name: number for name, number in numbers if number is not None}

    @cache
    def below(self, place, text):
        """A piece of a definition, with all definitions of its crate that it rests on, as one text."""
        crate, seen, texts = place.split("/")[0], set(), []
        waiting = [Definition(*place.split("/"), "", [], 0, lines=[text])]
        while waiting:
            now = waiting.pop()
            if id(now) not in seen:
                seen.add(id(now))
                texts.append("\n".join(now.lines))
                found = meanings(self.names, self.names.sources.specs[now.crate, now.file], now)
                waiting += [means for means in found if isinstance(means, Definition) and means.crate == crate]
        return "\n".join(texts)


def computed(expression, **values):
    """The value of an arithmetical expression of a definition, with numbers in place of names."""
    for name, value in values.items():
        expression = expression.replace(name.replace("__", " ").replace("_of_", "."), str(value))
    if not re.fullmatch(r"[\d\s()+*/-]+", expression):
        raise ValueError("not arithmetical: " + expression)
    return eval(expression.replace("/", "//"))  # digits and operators alone
