"""The declarations of a net: which colour sets are timed, and what names mean."""
from __future__ import annotations

import re
from typing import Any, Callable, Dict, Iterable, List, Set, Tuple

from ..values import Enumerated, Made
from .texts import PREDECLARED, Meaning, Reader, tokens_of

FUNCTION = re.compile(r"\s*fun\s+\w+\s*\((.*?)\)\s*:\s*\w+\s*=(.*);\s*", re.S)
BETWEEN = {"with": "|", "union": "+"}  # what stands between constants and between constructors


class Declared:
    """What is declared: timed colour sets, constants and constructors, values and functions."""

    def __init__(self, declarations: Iterable[str]):
        self.timed: Set[str] = set()
        self.constructors: Set[str] = set()
        self.values: Dict[str, Meaning] = {}
        self.functions: Dict[str, Tuple[List[str], Meaning]] = {}
        for text in declarations:
            words = [word for _, word in tokens_of(text)]
            if words[0] == "colset":
                self.colour_set(words)
            elif words[0] == "val":
                body = text[text.index("=") + 1 :].strip().removesuffix(";")
                self.values[words[1]] = Reader(body, self).whole()
            elif words[0] == "fun":
                self.function(words[1], text)

    def colour_set(self, words: List[str]) -> None:
        if words[-2] == "timed":
            self.timed.add(words[1])
        if words[3] in BETWEEN:
            before = (words[3], BETWEEN[words[3]])
            pairs = zip(words[3:], words[4:])
            self.constructors |= {word for one, word in pairs if one in before}

    def function(self, name: str, text: str) -> None:
        head, body = FUNCTION.fullmatch(text).groups()
        parameters = [part.split(":")[0].strip() for part in head.split(",")]
        self.functions[name] = (parameters, Reader(body, self).whole())

    def value(self, name: str) -> Any:
        """Returns what a name without arguments means, which no binding gives a value."""
        if name in ("true", "false"):
            return name == "true"
        return self.values[name]({}) if name in self.values else Enumerated(name)

    def call(self, name: str, given: List[Any]) -> Any:
        """Returns what a function or a constructor gives."""
        if name in PREDECLARED:
            function: Callable = PREDECLARED[name]
            return function(*given)
        if name in self.functions:
            parameters, body = self.functions[name]
            return body(dict(zip(parameters, given)))
        return Made(name, given[0] if len(given) == 1 else tuple(given))
