"""The colour sets of a net: which values they have, and in which order a report has these."""
from __future__ import annotations

import itertools
from typing import Any, Dict, Iterable, List, Optional, Tuple

from ..values import Enumerated, Made
from .texts import tokens_of

MOST_TRIED = 256  # values of a colour set whose variables need not be bound by an arc
SIMPLE = {"unit": [()], "bool": [False, True]}


def number(text: str) -> int:
    return int(text.replace("~", "-"))


class Colours:
    """The colour sets and the variables that are declared.

    bodies      what stands after the = of each colour set, as words
    variables   the colour set of each variable, in the order of the declarations
    order       of each constant and each constructor its number in its colour set
    """

    def __init__(self, declarations: Iterable[str]):
        self.bodies: Dict[str, List[str]] = {}
        self.variables: Dict[str, str] = {}
        self.order: Dict[str, int] = {}
        for text in declarations:
            words = [word for _, word in tokens_of(text)]
            if words[0] == "colset":
                self.add_colour_set(words)
            elif words[0] == "var":
                at = words.index(":")
                self.variables.update(dict.fromkeys(words[1:at:2], words[at + 1]))

    def add_colour_set(self, words: List[str]) -> None:
        _, name, _, *body = words[:-1]
        body = body[:-1] if body[-1] == "timed" else body
        self.bodies[name] = body
        names = body[1::2] if body[0] == "with" else [it for it, _ in self.alternatives(body)]
        self.order.update({it: at for at, it in enumerate(names)})

    @staticmethod
    def alternatives(body: List[str]) -> List[Tuple[str, Optional[str]]]:
        """Returns the constructors of a union, each with the colour set of its argument; of any
        other body none."""
        if body[0] != "union":
            return []
        groups = itertools.groupby(body[1:], lambda word: word == "+")
        parts = [list(part) for is_sign, part in groups if not is_sign]
        return [(part[0], part[2] if len(part) > 1 else None) for part in parts]

    # -- values

    def values(self, colour: str) -> Optional[List[Any]]:
        """Returns all values of a colour set in their order, or None where they are too many."""
        body = self.bodies[colour]
        kind = body[0]
        if kind in SIMPLE:
            return SIMPLE[kind]
        if kind == "int" and len(body) > 1:
            least, greatest = number(body[2]), number(body[4])
            return [*range(least, greatest + 1)] if greatest - least < MOST_TRIED else None
        if kind == "with":
            return few([Enumerated(name) for name in body[1::2]])
        if kind == "product":
            return self.products(body[1::2])
        if kind == "union":
            return self.unions(body)
        return self.values(kind) if kind in self.bodies else None

    def products(self, colours: List[str]) -> Optional[List[Any]]:
        found: List[Any] = [()]
        for colour in colours:
            values = self.values(colour)
            if values is None or len(found) * len(values) > MOST_TRIED:
                return None
            found = [(*one, other) for one in found for other in values]
        return found

    def unions(self, body: List[str]) -> Optional[List[Any]]:
        found: List[Any] = []
        for name, colour in self.alternatives(body):
            arguments = [None] if colour is None else self.values(colour)
            if arguments is None:
                return None
            found += [Enumerated(name) if it is None else Made(name, it) for it in arguments]
        return few(found)

    def has(self, colour: str, value: Any) -> bool:
        """Returns whether a colour set has a value of its type."""
        body = self.bodies[colour]
        kind = body[0]
        if kind == "int" and len(body) > 1:
            return number(body[2]) <= value <= number(body[4])
        if kind == "product":
            return all(map(self.has, body[1::2], value))
        if kind == "list":
            return all(self.has(body[1], item) for item in value)
        if kind == "union" and value.argument is not None:
            return self.has(dict(self.alternatives(body))[value.constructor], value.argument)
        return self.has(kind, value) if kind in self.bodies else True

    def values_of(self, variable: str) -> Optional[List[Any]]:
        """Returns all values that a variable may have, or None where they are too many."""
        return self.values(self.variables[variable])

    def allows(self, variable: str, value: Any) -> bool:
        """Returns whether a variable may have a value of its type."""
        return self.has(self.variables[variable], value)

    def key(self, value: Any) -> Any:
        """Returns by what values of one type are put in order."""
        if isinstance(value, Made):
            at = self.order[value.constructor]
            return (at,) if value.argument is None else (at, self.key(value.argument))
        if isinstance(value, (tuple, list)):
            return tuple(map(self.key, value))
        return value


def few(values: List[Any]) -> Optional[List[Any]]:
    """Returns values, if they are not too many."""
    return values if len(values) <= MOST_TRIED else None
