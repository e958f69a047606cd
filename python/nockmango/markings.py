"""The tokens on a place: how a report prints them, and what they are in Python.

    empty                   ()
    2`7 ++ 1`8              (Token(2, 7), Token(1, 8))
    2`7@3 ++ 1`8@0          (Token(2, 7, 3), Token(1, 8, 0))

What `show_marking` returns may also be the initial marking of a place.
"""
from __future__ import annotations

import collections
import re
from dataclasses import dataclass
from typing import Any, Iterable, Optional, Tuple

from .values import Reading, show_value

COUNT = re.compile(r"\s*([0-9]+)\s*`")
STAMP = re.compile(r"\s*@\s*([0-9]+)")
SUM = re.compile(r"\s*\+\+")


@dataclass(frozen=True)
class Token:
    """Equal tokens of a place: how many there are, their value, and their time stamp, which is
    None on a place that is not timed."""

    count: int
    value: Any
    time: Optional[int] = None


Marking = Tuple[Token, ...]


def read_token(reading: Reading) -> Token:
    count = int(reading.need(COUNT, "a number and `")[1])
    value = reading.value()
    stamp = reading.take(STAMP)
    return Token(count, value, int(stamp[1]) if stamp else None)


def read_marking(text: str) -> Marking:
    """Returns the tokens that a text is, as in a line `place` of a report."""
    if text.strip() == "empty":
        return ()
    reading = Reading(text)
    tokens = [read_token(reading)]
    while reading.take(SUM):
        tokens.append(read_token(reading))
    reading.end()
    return tuple(tokens)


def show_token(token: Token) -> str:
    stamp = "" if token.time is None else f"@{token.time}"
    return f"{token.count}`{show_value(token.value)}{stamp}"


def show_marking(marking: Iterable[Token]) -> str:
    """Returns how tokens are written in the language, and printed in a report."""
    return " ++ ".join(map(show_token, marking)) or "empty"


def size(marking: Iterable[Token]) -> int:
    """Returns how many tokens there are."""
    return sum(token.count for token in marking)


def counted(marking: Iterable[Token]) -> collections.Counter:
    """Returns how many tokens there are of each value, whatever their time stamps."""
    counts: collections.Counter = collections.Counter()
    for token in marking:
        counts[token.value] += token.count
    return counts
