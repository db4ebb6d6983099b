"""Reads the terms of definitions: what a definition is, case by case.

A term is a tuple that begins with its kind:
    ("name", name), ("number", n), ("text", bytes), ("field", term, name)
    ("apply", function, arguments), ("operator", name, left, right), ("tuple", terms)
    ("lambda", names, term), ("let", name, term, term), ("if", term, term, term)
    ("record", base or None, {field: term})
"""

import re

TOKEN = re.compile(r'\s*("(?:[^"\\]|\\.)*"|\[\]|[(){},;]|λ|\.(?=\s)|(?<=\S)\.(?=\S)|[^\s(){}\[\],;."λ]+)')
# Operators by how tightly they bind, and whether the right one of two is first.
OPERATORS = {"||": (1, True), "&&": (2, True), "==": (3, False), "∷": (4, True), "++": (4, True), "+": (5, False),
             "-": (5, False), "*": (6, False), "/": (6, False), "%": (6, False), "*ℤ": (6, False), "^": (7, True)}
ENDS = {")", ",", ";", "}", "then", "else", "in", "=", "{"} | set(OPERATORS)
ESCAPES = {"n": "\n", '"': '"', "\\": "\\"}


class Terms:
    """A reader of the tokens of one text."""

    def __init__(self, text):
        self.tokens, self.at = [token for token in TOKEN.findall(text)], 0

    @property
    def now(self):
        return self.tokens[self.at] if self.at < len(self.tokens) else ""

    def take(self, wanted=None):
        """The next token; it is the one that is wanted."""
        token = self.now
        assert token and wanted in (None, token), "%r in place of %r: %s" % (token, wanted, self.tokens)
        self.at += 1
        return token

    def term(self, least=0):
        """A term whose operators bind at least so tightly."""
        left = self.applied()
        while self.now in OPERATORS and OPERATORS[self.now][0] >= least:
            name = self.take()
            binds, right_first = OPERATORS[name]
            left = ("operator", name, left, self.term(binds + (not right_first)))
        return left

    def applied(self):
        """A function with its arguments, or what stands alone."""
        first, arguments = self.single(), []
        while self.now and self.now not in ENDS:
            arguments.append(self.single())
        return ("apply", first, arguments) if arguments else first

    def single(self):
        """One argument."""
        word = self.now
        if word == "λ":
            return self.function()
        if word == "let":
            self.take()
            name = self.bound()[0]
            self.take("=")
            value = self.term()
            self.take("in")
            return ("let", name, value, self.term())
        if word == "if":
            self.take()
            test = self.term()
            self.take("then")
            first = self.term()
            self.take("else")
            return ("if", test, first, self.term())
        return self.with_fields(self.inner())

    def inner(self):
        """An argument without the fields that are read of it."""
        word = self.take()
        if word == "(":
            terms = [self.term()]
            while self.now == ",":
                self.take()
                terms.append(self.term())
            self.take(")")
            return terms[0] if len(terms) == 1 else ("tuple", terms)
        if word == "record":
            base = None if self.now == "{" else self.with_fields(self.inner())
            return ("record", base, self.fields())
        if word.startswith('"'):
            return ("text", list(re.sub(r"\\(.)", lambda found: ESCAPES[found[1]], word[1:-1]).encode()))
        if word[0].isdigit():
            return ("number", int(word, 0))
        return ("name", word)

    def with_fields(self, term):
        """A term, and the fields that are read of it."""
        while self.now == "." and self.at + 1 < len(self.tokens):
            self.take()
            term = ("field", term, self.take())
        return term

    def fields(self):
        """The fields of a record, between braces."""
        self.take("{")
        found = {}
        while self.now != "}":
            name = self.take()
            self.take("=")
            found[name] = self.term()
            if self.now == ";":
                self.take()
        self.take("}")
        return found

    def bound(self):
        """A name that is bound, or more of one type in brackets."""
        if self.now != "(":
            return [self.take()]
        self.take()
        names = []
        while self.now != ":":
            names.append(self.take())
        depth = 1
        while depth:
            token = self.take()
            depth += (token == "(") - (token == ")")
        return names

    def function(self):
        """A function that is written out."""
        self.take("λ")
        names = []
        while self.now != ".":
            names += self.bound()
        self.take(".")
        return ("lambda", names, self.term())


def cases_of(definition):
    """The cases of a definition: for each what its arguments are matched with, and its term."""
    clauses = []
    for line in definition.lines[1:]:
        if not line[0].isspace() and line[0] not in "})":
            clauses.append(line)
        elif clauses:
            clauses[-1] += "\n" + line
    found = []
    for clause in clauses:
        reader = Terms(clause)
        reader.take(definition.name)
        patterns = []
        while reader.now != "=":
            patterns.append(reader.single())
        reader.take("=")
        term = reader.term()
        assert not reader.now, "%s: left: %s" % (definition.name, reader.tokens[reader.at:])
        found.append((patterns, term))
    return found
