"""The names that a document declares, each with its kind, and what is known of their colour
sets."""
from __future__ import annotations

import re
from dataclasses import dataclass
from typing import Dict, Iterator, List, Optional, Tuple

from .tokens import is_name, tokens_of

COLOUR_SET, VARIABLE, CONSTANT, CONSTRUCTOR = "colour set", "variable", "constant", "constructor"
VALUE, FUNCTION = "value", "function"
PREDECLARED = {
    **dict.fromkeys(("hd", "tl", "length", "rev"), "a list"),
    "mem": "a list and an item",
    "size": "a string",
}
TYPES = {
    "unit": "the unit value ()",
    "int": "an integer",
    "string": "a string",
    "bool": "a truth value",
    "product": "a product",
    "list": "a list",
}
NAMED_TYPES = {"with": "a constant of {}", "union": "a value of {}"}
LITERALS = ((r'".*', "a string"), (r"~?\d+", "an integer"), ("true|false", "a truth value"))
SMALL = 256  # values that a colour set has at most, all of which are tried


@dataclass(frozen=True)
class Name:
    """A declared name, its kind, and the number and the text of its declaration."""

    name: str
    kind: str
    number: int
    text: str


def names_of(number: int, text: str) -> Iterator[Name]:
    """Yields the names that a declaration declares, also where the rest of it is refused."""
    tokens = tokens_of(text)
    begins = "".join(tokens[:1])
    kinds = {"colset": COLOUR_SET, "val": VALUE, "fun": FUNCTION}
    named = [(token, kinds[begins]) for token in tokens[1:2] if begins in kinds]
    if begins == "var":
        end = tokens.index(":") if ":" in tokens else len(tokens)
        named = [(token, VARIABLE) for token in tokens[1:end]]
    if begins == "colset":
        named += made_by(tokens)
    for token, kind in named:
        if is_name(token):
            yield Name(token, kind, number, text.strip())


def made_by(tokens: List[str]) -> Iterator[Tuple[str, str]]:
    """Yields the constants or the constructors that a colour set declares, each with its kind."""
    body = "".join(tokens[3:4])
    between = {"with": "|", "union": "+"}.get(body)
    for before, token, after in zip(tokens[3:], tokens[4:], [*tokens[5:], ""]):
        if between and before in (body, between):
            yield token, CONSTRUCTOR if after == ":" else CONSTANT


class Declared:
    """The names of a document's declarations, in their order. A colour set and something else may
    have one name."""

    def __init__(self, declarations: List[str]):
        found = [names_of(number, text) for number, text in enumerate(declarations)]
        self.names = [name for names in found for name in names]
        self.named: Dict[str, List[Name]] = {}
        for it in self.names:
            self.named.setdefault(it.name, []).append(it)

    def find(self, name: str, *kinds: str) -> Optional[Name]:
        """Returns the first that has the name; of these kinds, where any are given."""
        found = (it for it in self.named.get(name, ()) if not kinds or it.kind in kinds)
        return next(found, None)

    def of(self, *kinds: str) -> List[str]:
        """Returns the names of these kinds, in their order."""
        return [it.name for it in self.names if it.kind in kinds]

    def text(self, name: str) -> str:
        """Returns the text that declares a name, or an empty one."""
        found = self.find(name)
        return found.text if found else ""

    def unfolded(self, text: str, kind: str, seen: Tuple[str, ...] = ()) -> str:
        """Returns a text with the declarations of this kind, as 'val|fun', of all names that it
        comes to."""
        names = {*re.findall(r"[A-Za-z]\w*", text)} - {*seen}
        found = [it for it in map(self.text, sorted(names)) if re.match(kind, it)]
        return " ".join([text, *(self.unfolded(it, kind, (*seen, *names)) for it in found)])

    # ---- colour sets

    def colour_of(self, variable: str) -> str:
        """Returns the name of the colour set of a variable, or an empty text."""
        found = self.find(variable, VARIABLE)
        return found.text.rpartition(":")[2].strip(" ;\t\r\n") if found else ""

    def body(self, colour: str) -> List[str]:
        """Returns the tokens of a colour set's body. That of another name for a colour set is the
        body of this one."""
        for _ in self.names:
            found = self.find(colour, COLOUR_SET)
            tokens = tokens_of(found.text)[3:] if found else []
            tokens = [it for it in tokens if it not in (";", "timed")]
            if len(tokens) != 1 or not is_name(tokens[0]):
                return tokens
            colour = tokens[0]
        return []

    def kind_of(self, colour: str) -> str:
        """Returns the word that the body of a colour set begins with, as 'list', or an empty
        one."""
        return (self.body(colour) or [""])[0]

    def is_timed(self, colour: str) -> bool:
        """Returns whether the tokens of a colour set have time stamps, by its own declaration."""
        found = self.find(colour, COLOUR_SET)
        return bool(found) and "timed" in tokens_of(found.text)

    def number_of_values(self, colour: str) -> Optional[int]:
        """Returns how many values a colour set has, or None where they are too many to count."""
        body = self.body(colour)
        kind, *rest = body or [""]
        if kind in ("", "string", "list") or body == ["int"]:
            return None
        if kind == "int":
            bounds = [it.replace("~", "-") for it in rest if re.fullmatch(r"~?\d+", it)]
            return max(int(bounds[-1]) - int(bounds[0]) + 1, 0)
        if kind in ("unit", "bool", "with"):
            return {"unit": 1, "bool": 2}.get(kind, rest.count("|") + 1)
        return self.counted(kind, " ".join(rest))

    def counted(self, kind: str, rest: str) -> Optional[int]:
        """Returns how many values a product or a union has."""
        number = int(kind == "product")
        for part in rest.split(" * " if kind == "product" else " + "):
            colour = part if kind == "product" else part.partition(" : ")[2]
            many = self.number_of_values(colour) if colour else 1
            if many is None:
                return None
            number = number * many if kind == "product" else number + many
        return number

    def is_small(self, colour: str) -> bool:
        """Returns whether all values of a colour set are tried, where nothing else gives one."""
        number = self.number_of_values(colour)
        return number is not None and number <= SMALL

    # ---- in words

    def type_of(self, token: str) -> str:
        """Returns the type of a literal, a variable, a constant or a value in words, where it is
        known."""
        for _ in range(len(self.names) + 1):
            literal = next((kind for form, kind in LITERALS if re.fullmatch(form, token)), "")
            found = self.find(token, VARIABLE, CONSTANT, VALUE)
            if literal or not found:
                return literal
            if found.kind == VARIABLE:
                return self.type_in(self.colour_of(token))
            tokens = tokens_of(found.text)
            if found.kind == CONSTANT:
                return self.type_in(tokens[1])
            if len(tokens) != 5:
                return ""
            token = tokens[3]
        return ""

    def type_in(self, colour: str) -> str:
        """Returns the type of a colour set's values in words."""
        kind = self.kind_of(colour)
        return TYPES.get(kind) or NAMED_TYPES.get(kind, "").format(colour)

    def facts(self, name: str) -> List[str]:
        """Returns what a name is that is predeclared or declared."""
        if name in PREDECLARED:
            takes = PREDECLARED[name]
            return [f"{name} is a function of the language: it takes {takes}, in parentheses."]
        return [f"{name} is declared by {self.text(name)}"] if self.find(name) else []
