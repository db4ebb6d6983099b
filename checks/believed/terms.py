"""Reads terms of definitions, and what they conclude."""

import re
from dataclasses import dataclass

TOKEN = re.compile(r"[(){}\[\]]|[^\s(){}\[\]]+")
EQUATIONS = {"≡", "≢", "≤", "<"}


@dataclass
class Group:
    """What stands in brackets."""
    bracket: str
    items: list


@dataclass
class Concluded:
    """The head of something that a term concludes, what it is applied to, and whether the term has no other way."""
    head: str
    arguments: list
    is_sure: bool


def read(text):
    """A term as a list of words and groups."""
    stack = [Group("", [])]
    for token in TOKEN.findall(text):
        if token in "({[":
            stack.append(Group(token, []))
        elif token in ")}]":
            group = stack.pop()
            stack[-1].items.append(group)
        else:
            stack[-1].items.append(token)
    return stack[0].items


def parts(items, mark):
    """The parts of a term between marks that stand in no brackets."""
    found = [[]]
    for item in items:
        if item == mark:
            found.append([])
        else:
            found[-1].append(item)
    return found


def explicit(items):
    """The arguments of a term but those in braces."""
    return [item for item in items if not (isinstance(item, Group) and item.bracket == "{")]


def is_inner(items):
    """Whether all of a term stands in round brackets."""
    return len(items) == 1 and isinstance(items[0], Group) and items[0].bracket == "("


def behind(items, ends):
    """What stands behind the first word that ends something."""
    place = next(at for at, item in enumerate(items) if isinstance(item, str) and ends(item))
    return items[place + 1:]


def bare(items):
    """A term without brackets round it, local values, arguments and premises."""
    while items:
        if is_inner(items):
            items = items[0].items
        elif items[0] == "let":
            items = behind(items, lambda word: word == "in")
        elif items[0] == "λ":
            items = behind(items, lambda word: word.endswith("."))
        elif "→" in items:
            items = parts(items, "→")[-1]
        else:
            break
    return items


def concluded(items, is_sure=True):
    """All that a term concludes but equations: of a sum each way, of a product each factor that is no value."""
    items = bare(items)
    for mark, stays_sure in (("↔", True), ("⊎", False), ("×", True)):
        if mark in items:
            factors = [part for part in parts(items, mark) if not (is_inner(part) and ":" in part[0].items)]
            return [found for part in factors for found in concluded(part, is_sure and stays_sure)]
    if not items or not isinstance(items[0], str) or any(item in EQUATIONS for item in items if isinstance(item, str)):
        return []
    return [Concluded(items[0], items[1:], is_sure)]
