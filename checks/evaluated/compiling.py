"""Makes of each definition a function of Python, which notes which cases of it are used.

A function takes as many arguments as the cases of its definition match; with fewer it is a value that takes the others
one by one. How values look is told in words.py.
"""

import inspect
import re

from parsing import cases_of
from words import WORDS

LIBRARY = "library"
# What operators of definitions are in Python; others are the same there.
OPERATORS = {"-": "less(%s, %s)", "/": "(%s // %s)", "^": "(%s ** %s)", "++": "(%s + %s)", "*ℤ": "(%s * %s)",
             "&&": "(%s and %s)", "||": "(%s or %s)", "∷": "[%s, *%s]"}


def less(a, b):
    """The difference, and 0 where it would be below 0."""
    return a - b if a > b else 0


def one_by_one(function, count, *had):
    """A function of so many arguments, of which it has some, as one that takes the others one by one."""
    if count == len(had):
        return function(*had)
    return lambda x: one_by_one(function, count, *had, x)


def arguments_of(text):
    """How many arguments a constructor has, by its type."""
    *parts, _ = re.split(r"→", text.partition(":")[2]) if "→" in text else [""]
    named = [group.partition(":")[0].split() for part in parts for group in re.findall(r"\(([^()]* : [^()]*)\)", part)]
    bare = [part for part in parts if part.strip() and not re.match(r"\s*\([^()]* : ", part)]
    return sum(map(len, named)) + len(bare)


class Match:
    """What has to hold for values to fit the patterns of a case, and the names that these bind."""

    def __init__(self, compiler, spec):
        self.compiler, self.spec, self.tests, self.bound = compiler, spec, [], {}

    def take(self, pattern, at):
        """Adds a pattern of the value that an expression of Python has."""
        kind, means = pattern[0], self.compiler.found(self.spec, pattern, {})
        if kind == "number":
            self.tests.append("%s == %d" % (at, pattern[1]))
        elif kind == "name" and pattern[1] == "[]":
            self.tests.append("not " + at)
        elif means and (means[0] == "form" or means[0] == LIBRARY and means[2] in WORDS):
            self.take_form(means[2], [], at)
        elif kind == "apply":
            self.take_form(self.compiler.found(self.spec, pattern[1], {})[2], pattern[2], at)
        elif kind == "operator":
            self.tests.append(at)
            self.take(pattern[2], at + "[0]")
            self.take(pattern[3], at + "[1:]")
        elif kind == "tuple":
            for number, part in enumerate(pattern[1]):
                self.take(part, "%s[%d]" % (at, number))
        elif pattern[1] != "_":
            self.bound[pattern[1]] = at

    def take_form(self, name, parts, at):
        """Adds a form with patterns of its parts; numbers have the forms `zero` and `suc`."""
        if name in ("true", "false"):
            self.tests.append(at if name == "true" else "not " + at)
        elif name == "zero":
            self.tests.append(at + " == 0")
        elif name == "suc":
            self.tests.append(at + " > 0")
            self.take(parts[0], "(%s - 1)" % at)
        else:
            self.tests.append("%s[0] == %r" % (at, name))
            for number, part in enumerate(parts, 1):
                self.take(part, "%s[%d]" % (at, number))


class Compiler:
    """Functions of definitions, made as they are asked for."""

    def __init__(self, names):
        self.names, self.made, self.used, self.count = names, {}, set(), 0
        self.scope = {"W": WORDS, "less": less, "one_by_one": one_by_one, "used": self.used.add}

    def function(self, definition):
        """The function of a definition; without arguments it answers its value."""
        return self.scope[self.named(definition)[0]]

    def named(self, definition):
        """The name of the function of a definition in Python, with how many arguments it takes."""
        key = (definition.place, definition.name)
        if key not in self.made:
            cases = cases_of(definition)
            self.made[key] = ("f%d" % len(self.made), len(cases[0][0]))
            exec(self.code(definition, cases, self.made[key][0]), self.scope)
        return self.made[key]

    def code(self, definition, cases, name):
        """The function of some cases, under a name."""
        spec = self.names.sources.specs[definition.crate, definition.file]
        key = (definition.place, definition.name)
        parameters = ["a%d" % at for at in range(len(cases[0][0]))]
        lines = ["def %s(%s):" % (name, ", ".join(parameters))]
        for number, (patterns, term) in enumerate(cases):
            match = Match(self, spec)
            for pattern, at in zip(patterns, parameters):
                match.take(pattern, at)
            lines.append("    if %s:" % (" and ".join(match.tests) or "True"))
            lines.append("        used(%r)" % ((*key, number),))
            lines.append("        return " + self.term(spec, term, match.bound))
        return "\n".join(lines + ["    raise ValueError(%r)" % ("no case of %s/%s fits" % key)])

    def meaning(self, spec, name):
        """What a name means in a file: its kind, the thing, and its name there; None for one that is bound."""
        if name in spec.definitions:
            return ("definition", spec.definitions[name], name)
        if name in self.names.constructors[spec.crate, spec.file]:
            return ("form", self.names.constructors[spec.crate, spec.file][name], name)
        return self.imported(*spec.imports[name]) if name in spec.imports else None

    def imported(self, path, name):
        """The same of a name of a module."""
        parts = path.split(".")
        if parts[0] != "Rattle" or parts[1] not in self.names.crates:
            return (LIBRARY, path, name)
        if parts[3:4] == ["declared"]:
            of = self.names.declared(parts, name)
            return ("constant" if of.kind == "const" else "form", of, name)
        return self.meaning(self.names.sources.specs[parts[1], ".".join(parts[3:])], name)

    def found(self, spec, term, bound):
        """What a name, or one behind a name of a module, means; None where it is bound, or no name."""
        if term[0] == "name" and term[1] not in bound:
            return self.meaning(spec, term[1])
        if term[0] == "field" and term[1][0] == "name" and term[1][1] in spec.modules and term[1][1] not in bound:
            return self.imported(spec.modules[term[1][1]], term[2])
        return None

    def variable(self):
        """A name that nothing has."""
        self.count += 1
        return "v%d" % self.count

    def term(self, spec, term, bound):
        """A term as an expression of Python."""
        kind = term[0]
        if kind in ("name", "apply") or kind == "field" and self.found(spec, term, bound):
            return self.applied(spec, term, bound)
        if kind == "field":
            of = self.term(spec, term[1], bound)
            return "%s[%s]" % (of, term[2] if term[2].isdigit() else repr(term[2]))
        return getattr(self, "of_" + kind)(spec, bound, *term[1:])

    def of_number(self, spec, bound, number):
        return str(number)

    def of_text(self, spec, bound, text):
        return repr(text)

    def of_tuple(self, spec, bound, terms):
        return "(%s)" % ", ".join(self.term(spec, term, bound) for term in terms)

    def of_operator(self, spec, bound, name, left, right):
        both = (self.term(spec, left, bound), self.term(spec, right, bound))
        return OPERATORS[name] % both if name in OPERATORS else "(%s %s %s)" % (both[0], name, both[1])

    def of_if(self, spec, bound, test, first, second):
        return "(%s if %s else %s)" % tuple(self.term(spec, term, bound) for term in (first, test, second))

    def of_let(self, spec, bound, name, value, term):
        variable = self.variable()
        return "(%s := %s, %s)[1]" % (variable, self.term(spec, value, bound),
                                      self.term(spec, term, {**bound, name: variable}))

    def of_lambda(self, spec, bound, names, term):
        bound, head = dict(bound), ""
        for name in names:
            bound[name] = self.variable()
            head += "lambda %s: " % bound[name]
        return "(%s%s)" % (head, self.term(spec, term, bound))

    def of_record(self, spec, bound, base, fields):
        parts = ["**" + self.term(spec, base, bound)] if base else []
        parts += ["%r: %s" % (name, self.term(spec, value, bound)) for name, value in fields.items()]
        return "{%s}" % ", ".join(parts)

    def applied(self, spec, term, bound):
        """A name, or a function with its arguments."""
        head, arguments = (term[1], term[2]) if term[0] == "apply" else (term, [])
        values = [self.term(spec, argument, bound) for argument in arguments]
        means = self.found(spec, head, bound)
        if means is None and head[0] == "name":
            head_is = "[]" if head[1] == "[]" else bound[head[1]]
            return head_is + "".join("(%s)" % value for value in values)
        if means is None:
            return self.term(spec, head, bound) + "".join("(%s)" % value for value in values)
        called, count = self.called(*means)
        if count <= len(values):
            first = "%s(%s)" % (called, ", ".join(values[:count])) if count or means[0] == "definition" else called
            return first + "".join("(%s)" % value for value in values[count:])
        return "one_by_one(%s)" % ", ".join([called, str(count), *values])

    def called(self, kind, thing, name):
        """A function as it is called in Python, with how many arguments it takes."""
        if kind == "constant":
            return "%d" % thing.number(), 0
        if kind == LIBRARY:
            value = WORDS[name]
            return "W[%r]" % name, len(inspect.signature(value).parameters) if callable(value) else 0
        return self.form(thing, name) if kind == "form" else self.named(thing)

    def form(self, thing, name):
        """A form of a data type or an enum as it is called in Python, with how many arguments it takes."""
        count = thing.variants()[name] if hasattr(thing, "kind") else next(
            arguments_of(line) for line in thing.lines[1:] if line.split()[0] == name)
        names = ["x%d" % at for at in range(count)]
        made = "(%s,)" % ", ".join([repr(name), *names])
        return "(lambda %s: %s)" % (", ".join(names), made) if count else made, count
