"""The texts of the language, read as plainly as can be: what an inscription means is a function of
the values of its names.

    Reader("if n = k then k + 1 else k", known).whole()({"n": 1, "k": 1})       2

Values are those of `nockmango.values`, and a multiset is a `Bag`. Numbers past 64 bits, division by
0, `hd` and `tl` of [] and a `case` without a matching arm are a `Fault`; other faults are not seen.
What is no text of the language is `Wrong`, but types and the grammar are not checked whole: the
program does that.
"""
from __future__ import annotations

import re
from typing import Any, Callable, Dict, List, Mapping, Tuple

from ..values import Enumerated, FrozenList, read_value
from .faults import Fault

Meaning = Callable[[Mapping[str, Any]], Any]
Pattern = Callable[[Any, Dict[str, Any]], bool]  # tells whether a value matches, and binds names

TOKEN = re.compile(
    r'\s*(?:([A-Za-z]\w*)|(~?\d+)|("(?:\\.|[^"\\])*")'
    r"|(<>|<=|>=|::|\^\^|\+\+|@\+|=>|\.\.|[()\[\],;:=<>^+\-*~`@#|_]))"
)
KINDS = ("name", "number", "string", "sign")
END = ("end", "")
LEAST, GREATEST = -(2**63), 2**63 - 1


class Wrong(Exception):
    """A text is none of the language, or a report is not that of a run of the net."""


class Bag(list):
    """A multiset: values, each with its number of tokens and their delay."""


def bag_of(value: Any) -> Bag:
    """Returns a value as a multiset: one that is none is one token."""
    return value if isinstance(value, Bag) else Bag([(value, 1, 0)])


# ---- what the operators and the predeclared functions give


def within(number: int) -> int:
    """Returns an integer of 64 bits."""
    if not LEAST <= number <= GREATEST:
        raise Fault("overflow")
    return number


def divided(number: int, divisor: int) -> int:
    if divisor == 0:
        raise Fault("divide_by_zero")
    return within(number // divisor)


def remainder(number: int, divisor: int) -> int:
    if divisor == 0:
        raise Fault("divide_by_zero")
    return number % divisor


def some(items: FrozenList) -> FrozenList:
    """Returns a list that is not empty."""
    if not items:
        raise Fault("empty_list")
    return items


COMPARED = {
    "=": lambda a, b: a == b,
    "<>": lambda a, b: a != b,
    "<": lambda a, b: a < b,
    "<=": lambda a, b: a <= b,
    ">": lambda a, b: a > b,
    ">=": lambda a, b: a >= b,
}
SUMS = {
    "+": lambda a, b: within(a + b),
    "-": lambda a, b: within(a - b),
    "^": lambda a, b: a + b,
}
PRODUCTS = {"*": lambda a, b: within(a * b), "div": divided, "mod": remainder}
LISTS = {"::": lambda a, b: FrozenList([a, *b]), "^^": lambda a, b: a + b}
PREDECLARED = {
    "hd": lambda items: some(items)[0],
    "tl": lambda items: some(items)[1:],
    "length": len,
    "rev": lambda items: items[::-1],
    "mem": lambda items, item: item in items,
    "size": len,
}


# ---- reading


def tokens_of(text: str) -> List[Tuple[str, str]]:
    """Returns the tokens of a text: the kind and the text of each."""
    found, at, text = [], 0, text.rstrip()
    while at < len(text):
        it = TOKEN.match(text, at)
        if not it:
            raise Wrong(f"no token begins at {at} of {text}")
        found.append((KINDS[it.lastindex - 1], it[it.lastindex]))
        at = it.end()
    return found


class Reader:
    """Reads a text. `known` has what is declared: its constructors, its values, its functions."""

    def __init__(self, text: str, known):
        self.tokens, self.at, self.known = tokens_of(text), 0, known

    def peek(self) -> Tuple[str, str]:
        return self.tokens[self.at] if self.at < len(self.tokens) else END

    def take(self, *wanted: str):
        """Takes the next token, if it is one of these texts; any token where none is named."""
        kind, text = self.peek()
        if kind == "end" or wanted and (kind == "string" or text not in wanted):
            return None
        self.at += 1
        return text

    def need(self, text: str) -> None:
        if not self.take(text):
            raise Wrong(f"{text} is missing before {self.peek()[1]}")

    def listed(self, part: Callable, end: str) -> List:
        """Reads parts with commas between, up to the sign that ends them."""
        parts = []
        while not self.take(end):
            parts.append(part())
            self.take(",")
        return parts

    def whole(self) -> Meaning:
        """Reads an inscription that is the whole text."""
        meaning = self.inscription()
        if self.peek() != END:
            raise Wrong(f"{self.peek()[1]} was not expected")
        return meaning

    # -- inscriptions, from the loosest form to the tightest

    def inscription(self) -> Meaning:
        for word, form in (("if", self.branch), ("case", self.cases), ("foldl", self.fold)):
            if self.take(word):
                return form()
        return self.sum()

    def branch(self) -> Meaning:
        condition = self.inscription()
        self.need("then")
        yes = self.inscription()
        self.need("else")
        no = self.inscription()
        return lambda env: yes(env) if condition(env) else no(env)

    def cases(self) -> Meaning:
        subject = self.inscription()
        self.need("of")
        arms = [self.arm()]
        while self.take("|"):
            arms.append(self.arm())

        def meaning(env):
            value = subject(env)
            for pattern, result in arms:
                bound = {}
                if pattern(value, bound):
                    return result({**env, **bound})
            raise Fault("no_case")

        return meaning

    def arm(self) -> Tuple[Pattern, Meaning]:
        pattern = self.pattern()
        self.need("=>")
        return pattern, self.inscription()

    def fold(self) -> Meaning:
        item = self.take()
        self.need(",")
        made = self.take()
        self.need("over")
        items = self.inscription()
        self.need("from")
        first = self.inscription()
        self.need("do")
        body = self.inscription()

        def meaning(env):
            over, value = items(env), first(env)
            for it in over:
                value = body({**env, item: it, made: value})
            return value

        return meaning

    def sum(self) -> Meaning:
        parts = [self.late()]
        while self.take("++"):
            parts.append(self.late())
        if len(parts) == 1:
            return parts[0]
        return lambda env: Bag(term for part in parts for term in bag_of(part(env)))

    def late(self) -> Meaning:
        term = self.term()
        if not self.take("@+", "@"):
            return term
        delay = self.alternatives()

        def meaning(env):
            bag = bag_of(term(env))
            later = delay(env)
            return Bag((value, count, late + later) for value, count, late in bag)

        return meaning

    def term(self) -> Meaning:
        first = self.alternatives()
        if not self.take("`"):
            return first
        value = self.alternatives()
        return lambda env: Bag([(value(env), first(env), 0)])

    def alternatives(self) -> Meaning:
        first = self.conjunction()
        while self.take("orelse"):
            first = (lambda a, b: lambda env: a(env) or b(env))(first, self.conjunction())
        return first

    def conjunction(self) -> Meaning:
        first = self.comparison()
        while self.take("andalso"):
            first = (lambda a, b: lambda env: a(env) and b(env))(first, self.comparison())
        return first

    def comparison(self) -> Meaning:
        first = self.list()
        sign = self.take(*COMPARED)
        return operation(COMPARED[sign], first, self.list()) if sign else first

    def list(self) -> Meaning:
        first = self.row(lambda: self.row(self.prefixed, PRODUCTS), SUMS)
        sign = self.take(*LISTS)
        return operation(LISTS[sign], first, self.list()) if sign else first

    def row(self, operand: Callable[[], Meaning], signs: Mapping[str, Callable]) -> Meaning:
        first = operand()
        while sign := self.take(*signs):
            first = operation(signs[sign], first, operand())
        return first

    def prefixed(self) -> Meaning:
        if self.take("not"):
            return (lambda operand: lambda env: not operand(env))(self.prefixed())
        if self.take("~"):
            return (lambda operand: lambda env: within(-operand(env)))(self.prefixed())
        if self.take("#"):
            number = int(self.take()) - 1
            return (lambda operand: lambda env: operand(env)[number])(self.prefixed())
        return self.atom()

    def atom(self) -> Meaning:
        kind, text = self.peek()
        self.at += 1
        if text == "(" and kind == "sign":
            parts = self.listed(self.inscription, ")")
            return parts[0] if len(parts) == 1 else lambda env: tuple(part(env) for part in parts)
        if text == "[" and kind == "sign":
            items = self.listed(self.inscription, "]")
            return lambda env: FrozenList(item(env) for item in items)
        if kind == "name":
            return self.named(text)
        value = literal(kind, text)
        return lambda env: value

    def named(self, name: str) -> Meaning:
        if name == "empty":
            return lambda env: Bag()
        if name == "let":
            return self.let()
        if self.take("("):
            given = self.listed(self.inscription, ")")
            return lambda env: self.known.call(name, [it(env) for it in given])
        return lambda env: env[name] if name in env else self.known.value(name)

    def let(self) -> Meaning:
        values = []
        while self.take("val"):
            name = self.take()
            self.need("=")
            values.append((name, self.inscription()))
        self.need("in")
        body = self.inscription()
        self.need("end")

        def meaning(env):
            for name, value in values:
                env = {**env, name: value(env)}
            return body(env)

        return meaning

    # -- patterns

    def pattern(self) -> Pattern:
        first = self.simple_pattern()
        if not self.take("::"):
            return first
        rest = self.pattern()
        return lambda value, bound: (
            len(value) > 0 and first(value[0], bound) and rest(value[1:], bound)
        )

    def simple_pattern(self) -> Pattern:
        kind, text = self.peek()
        self.at += 1
        if text == "_":
            return lambda value, bound: True
        if kind == "sign":
            parts = self.listed(self.pattern, {"(": ")", "[": "]"}[text])
            return parts[0] if len(parts) == 1 and text == "(" else all_of(parts)
        if kind != "name" or text in ("true", "false"):
            wanted = literal(kind, text)
            return lambda value, bound: value == wanted
        if text not in self.known.constructors:
            return lambda value, bound: not bound.update({text: value})
        if not self.take("("):
            return lambda value, bound: value == Enumerated(text)
        parts = self.listed(self.pattern, ")")
        argument = parts[0] if len(parts) == 1 else all_of(parts)
        return lambda value, bound: (
            value.constructor == text and argument(value.argument, bound)
        )


def operation(of: Callable, first: Meaning, second: Meaning) -> Meaning:
    return lambda env: of(first(env), second(env))


def all_of(parts: List[Pattern]) -> Pattern:
    """Returns a pattern of a tuple or of a list, part by part."""
    return lambda value, bound: (
        len(value) == len(parts) and all(part(it, bound) for part, it in zip(parts, value))
    )


def literal(kind: str, text: str) -> Any:
    """Returns the value of a number, a string or a truth value."""
    if kind in ("number", "string") or text in ("true", "false"):
        return read_value(text)
    raise Wrong(f"{text} is no value")
