"""The forms of a text that a search for bindings looks at: the conjuncts of a guard, the terms of
an arc, and the names that a text leaves free."""
from __future__ import annotations

import contextlib
from typing import Iterator, List, Optional, Set, Tuple

from .declarations import Declared
from .texts import TOKEN, Reader

OPENING, CLOSING = ("(", "[", "let"), (")", "]", "end")
TO_THE_END = ("if", "case", "foldl")  # the last part of these reaches as far as it can
COMPARISONS = ("<>", "<", "<=", ">", ">=")
OF_PATTERNS = ("(", ")", "[", "]", ",", "::")


def words_of(text: str) -> List[Tuple[str, int, int]]:
    """Returns the tokens of a text, with where each begins and ends."""
    found, at, text = [], 0, text.rstrip()
    while at < len(text):
        it = TOKEN.match(text, at)
        found.append((it[it.lastindex], it.start(it.lastindex), it.end()))
        at = it.end()
    return found


def split_at(text: str, *signs: str) -> List[str]:
    """Returns the parts of a text between signs that stand in no brackets."""
    found, depth, start = [], 0, 0
    for word, first, last in words_of(text):
        if depth == 0 and word in TO_THE_END:
            break
        depth += (word in OPENING) - (word in CLOSING)
        if depth == 0 and word in signs:
            found.append(text[start:first].strip())
            start = last
    return [*found, text[start:].strip()]


def enclosed(text: str, opening: str) -> Optional[str]:
    """Returns what stands in the brackets that begin with this sign and are the whole text."""
    words, depth = words_of(text), 0
    if not words or words[0][0] != opening:
        return None
    for at, (word, first, _) in enumerate(words):
        depth += (word in OPENING) - (word in CLOSING)
        if depth == 0:
            return text[words[0][2] : first].strip() if at == len(words) - 1 else None
    return None


def unwrapped(text: str) -> str:
    """Returns a text without the parentheses around the whole of it."""
    inner = enclosed(text, "(")
    if not inner or len(split_at(inner, ",")) > 1:
        return text.strip()
    return unwrapped(inner)


def conjuncts(guard: str) -> List[str]:
    """Returns the parts of a guard that all have to be true."""
    inner = enclosed(guard.strip(), "[")
    parts = [guard] if inner is None else split_at(inner, ",")
    return [it for part in parts for it in conjuncts_of(part) if it]


def conjuncts_of(part: str) -> List[str]:
    part = unwrapped(part)
    if len(split_at(part, "orelse")) > 1:
        return [part]
    found = split_at(part, "andalso")
    return [part] if len(found) == 1 else [it for one in found for it in conjuncts_of(one)]


def sides(conjunct: str) -> List[str]:
    """Returns the two sides of an equation; of anything else none."""
    is_equation = len(split_at(conjunct, *COMPARISONS)) == 1
    found = [unwrapped(side) for side in split_at(conjunct, "=")]
    return found if is_equation and len(found) == 2 else []


def terms(inscription: str) -> List[str]:
    """Returns of each term of an inscription that a search could match what stands there for its
    tokens: x of ``2`x``. A coefficient that is no number from 1 on has none."""
    inscription = unwrapped(inscription)
    parts = split_at(inscription, "++")
    if len(parts) > 1:
        return [it for part in parts for it in terms(part)]
    pieces = split_at(inscription, "`")
    is_sure = len(pieces) == 1 or pieces[0].isdigit() and int(pieces[0]) > 0
    return [unwrapped(pieces[-1])] if is_sure else []


def is_pattern(text: str, variables: Set[str], known: Declared) -> bool:
    """Returns whether a text is made of variables, literals, constants, constructors, tuples and
    lists alone, so that it can be matched with a value."""
    words = [word for word, *_ in words_of(text)]
    for word, after in zip(words, [*words[1:], ""]):
        is_name = word[0].isalpha() and word not in ("true", "false")
        if is_name and word not in known.constructors and (word not in variables or after == "("):
            return False
        is_literal = word[0] in '"~' and len(word) > 1 or word[0].isdigit()
        if not is_name and not is_literal and word not in (*OF_PATTERNS, "true", "false"):
            return False
    return bool(words)


class Names(Reader):
    """Reads a text for the names that it leaves free; what it means is not made."""

    def __init__(self, text: str, known: Declared):
        super().__init__(text, known)
        self.scopes: List[Set[str]] = []
        self.free: Set[str] = set()

    @contextlib.contextmanager
    def scope(self, *names: str) -> Iterator[None]:
        self.scopes.append(set(names))
        yield
        self.scopes.pop()

    def named(self, name):
        if self.peek()[1] != "(" and not any(name in scope for scope in self.scopes):
            self.free.add(name)
        return super().named(name)

    def arm(self):
        with self.scope():
            return super().arm()

    def simple_pattern(self):
        kind, text = self.peek()
        if kind == "name" and text not in self.known.constructors:
            self.scopes[-1].add(text)
        return super().simple_pattern()

    def fold(self):
        item = self.take()
        self.need(",")
        made = self.take()
        self.need("over")
        self.inscription()
        self.need("from")
        self.inscription()
        self.need("do")
        with self.scope(item, made):
            return self.inscription()

    def let(self):
        with self.scope():
            while self.take("val"):
                name = self.take()
                self.need("=")
                self.inscription()
                self.scopes[-1].add(name)
            self.need("in")
            body = self.inscription()
            self.need("end")
            return body


def free_names(text: str, known: Declared) -> Set[str]:
    """Returns the names that a text leaves free: its variables, and constants and values."""
    reader = Names(text, known)
    reader.whole()
    return reader.free
