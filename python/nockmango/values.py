"""The values of the inscription language: how a report prints them, and what they are in Python.

    unit        ()                  ()
    bool        true                True
    int         5, ~5               5, -5
    string      "a\\"b"              'a"b'
    with        red                 Enumerated("red")
    product     (1,"a")             (1, "a")
    list        [1,2]               [1, 2], a FrozenList
    union       none, some(5)       Enumerated("none"), Made("some", 5)

Values can be compared, counted, and be the keys of a dict. Of a lone name a report does not say
whether it is a constant or a constructor without an argument, so both are `Enumerated`.
"""
from __future__ import annotations

import re
from dataclasses import dataclass
from typing import Any, Dict, List, Mapping, Match, Optional, Pattern

NAME = "[A-Za-z][A-Za-z0-9_]*"
VALUE = re.compile(
    rf'\s*(?:(?P<name>{NAME})|(?P<number>~?[0-9]+)|(?P<string>"(?:[^"\\]|\\["\\])*")'
    r"|(?P<sign>[(\[]))"
)
VARIABLE = re.compile(rf"\s*({NAME})\s*=")
SIGNS = {sign: re.compile(rf"\s*{re.escape(sign)}") for sign in "()[]{},"}
END = re.compile(r"\s*\Z")


class FrozenList(list):
    """A list of the language: a Python list that nobody changes, so that it may be a key."""

    __slots__ = ()

    def __hash__(self) -> int:
        return hash(tuple(self))

    def __getitem__(self, at):
        found = super().__getitem__(at)
        return FrozenList(found) if isinstance(at, slice) else found

    def __add__(self, other) -> FrozenList:
        return FrozenList(super().__add__(other))

    def __reduce__(self):
        return FrozenList, (tuple(self),)

    def _unchanged(self, *given, **named):
        raise TypeError("a list of the language does not change: list(it) is one that does")

    append = extend = insert = remove = pop = clear = sort = reverse = _unchanged
    __setitem__ = __delitem__ = __iadd__ = __imul__ = _unchanged


@dataclass(frozen=True, eq=False)
class Made:
    """A value of a union: what a constructor makes of its argument, which is None without one."""

    constructor: str
    argument: Any = None

    def __eq__(self, other) -> bool:
        if not isinstance(other, Made):
            return NotImplemented
        mine, others = (self.constructor, self.argument), (other.constructor, other.argument)
        return mine == others

    def __hash__(self) -> int:
        return hash((self.constructor, self.argument))


class Enumerated(Made):
    """A constant of an enumeration, or a constructor without an argument."""

    def __init__(self, name: str):
        super().__init__(name)

    @property
    def name(self) -> str:
        return self.constructor

    def __repr__(self) -> str:
        return f"Enumerated({self.name!r})"


class Reading:
    """A text that is read from left to right. ValueError says what is wanted, and where."""

    def __init__(self, text: str):
        self.text, self.at = text, 0

    def take(self, form: Pattern) -> Optional[Match]:
        """Takes what comes next, if it has the form."""
        found = form.match(self.text, self.at)
        if found:
            self.at = found.end()
        return found

    def need(self, form: Pattern, wanted: str) -> Match:
        found = self.take(form)
        if not found:
            raise ValueError(f"{wanted} is wanted at character {self.at} of {self.text}")
        return found

    def end(self) -> None:
        self.need(END, "the end")

    def value(self) -> Any:
        found = self.need(VALUE, "a value")
        kind = found.lastgroup
        piece = found[kind]
        if kind == "number":
            return int(piece.replace("~", "-"))
        if kind == "string":
            return re.sub(r"\\(.)", r"\1", piece[1:-1])
        if kind == "name":
            return self.named(piece)
        if piece == "[":
            return FrozenList(self.parts("]"))
        return one_or_tuple(self.parts(")"))

    def named(self, name: str) -> Any:
        if name in ("true", "false"):
            return name == "true"
        if not self.take(SIGNS["("]):
            return Enumerated(name)
        parts = self.parts(")")
        if not parts:
            raise ValueError(f"an argument of {name} is wanted in {self.text}")
        return Made(name, one_or_tuple(parts))

    def parts(self, closing: str) -> List[Any]:
        """Reads values with commas between, up to the sign that closes them."""
        parts: List[Any] = []
        while not self.take(SIGNS[closing]):
            if parts:
                self.need(SIGNS[","], f", or {closing}")
            parts.append(self.value())
        return parts

    def binding(self) -> Dict[str, Any]:
        found: Dict[str, Any] = {}
        self.need(SIGNS["{"], "{")
        while not self.take(SIGNS["}"]):
            if found:
                self.need(SIGNS[","], ", or }")
            name = self.need(VARIABLE, "a variable and =")[1]
            found[name] = self.value()
        return found


def one_or_tuple(parts: List[Any]) -> Any:
    """Returns what parentheses around these parts are: the one part, or the tuple of them."""
    return parts[0] if len(parts) == 1 else tuple(parts)


def read_value(text: str) -> Any:
    """Returns the value that a text is, as in a report: '[1,2]' is [1, 2]."""
    reading = Reading(text)
    value = reading.value()
    reading.end()
    return value


def read_binding(text: str) -> Dict[str, Any]:
    """Returns the binding that a text is, as in a report: '{n=1, d="COL"}'."""
    reading = Reading(text)
    binding = reading.binding()
    reading.end()
    return binding


def show_value(value: Any) -> str:
    """Returns how a value is written in the language, and printed in a report."""
    if isinstance(value, bool):
        return "true" if value else "false"
    if isinstance(value, int):
        return str(value).replace("-", "~")
    if isinstance(value, str):
        return '"' + value.replace("\\", "\\\\").replace('"', '\\"') + '"'
    if isinstance(value, Made):
        argument = "" if value.argument is None else f"({show_value(value.argument)})"
        return value.constructor + argument
    if isinstance(value, list):
        return f"[{','.join(map(show_value, value))}]"
    if isinstance(value, tuple) and len(value) != 1:
        return f"({','.join(map(show_value, value))})"
    raise TypeError(f"{value!r} is no value of the language")


def show_binding(binding: Mapping[str, Any]) -> str:
    """Returns how a binding is printed in a report."""
    return f"{{{', '.join(f'{name}={show_value(value)}' for name, value in binding.items())}}}"
