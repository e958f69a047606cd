"""A form of another type than is wanted: what is wanted at its first token, by what stands beside
it, and what stands there."""
from __future__ import annotations

from typing import Iterator, List

from .document import ARCS, DELAY, GUARD, INITIAL, MONITOR, Document
from .pages import rows
from .tokens import depths_of, tokens_of

ROOTS = {
    GUARD: "In a guard a truth value is wanted, or several in [ ].",
    DELAY: "In a delay an integer is wanted.",
    MONITOR: "In what a monitor measures an integer is wanted.",
}
JOINED = {"a list": "Lists are joined by ^^.", "a string": "Strings are joined by ^."}
OF_CONDITIONS = ("if", "not", "andalso", "orelse")


class Refused:
    """The token at which a form is refused for its type, and what stands around it."""

    def __init__(self, net: Document, parts: List[str], text: str, at: int):
        self.net, self.site, self.tokens = net, net.site(parts), tokens_of(text)
        self.number = len(tokens_of(text[:at]))
        self.it = self.tokens[self.number]
        self.before = self.tokens[self.number - 1] if self.number else ""
        self.after = (*self.tokens, "")[self.number + 1]
        self.type = "a list" if self.it == "[" else net.declared.type_of(self.it)
        self.place = net.place_at(parts)

    def beside(self, *signs: str) -> bool:
        return self.before in signs or self.after in signs

    def caller(self) -> str:
        """Returns the token before the innermost bracket that is open, which is the name of a call,
        or an empty text."""
        before = self.tokens[: self.number]
        for at in range(len(before) - 1, 0, -1):
            if before[at] == "(" and before[at:].count("(") > before[at:].count(")"):
                return before[at - 1]
        return ""


def mismatch_facts(net: Document, parts: List[str], text: str, at: int) -> Iterator[str]:
    """Yields what is wanted at a character of a text, by what is beside it, and what stands
    there."""
    refused = Refused(net, parts, text, at)
    yield from wanted_facts(refused)
    yield from hints(refused)
    yield from net.declared.facts(refused.caller())
    if refused.place:
        name, colour = refused.place["name"], refused.place["colour"]
        yield f"The colour set of place {name} is {colour}: {net.declared.text(colour)}"
    if refused.type and refused.it != "[":
        yield f"{refused.it} is {refused.type}."
    yield from net.declared.facts(refused.it)


def wanted_facts(refused: Refused) -> Iterator[str]:
    """Yields what the root of the text wants, and what a sign or a word beside the token does."""
    it, before, after = refused.it, refused.before, refused.after
    is_number_of_tokens = after == "`" and it.isdigit()
    if refused.site != INITIAL and (it == "empty" or is_number_of_tokens):
        yield f"{it} begins a form for tokens, and one value is wanted here."
    elif not refused.number and refused.site in ROOTS:
        yield ROOTS[refused.site]
    for signs, (left, right) in rows("What stands beside a sign").items():
        if right and before in signs.split():
            yield f"After {before} {right} is wanted."
        if left and after in signs.split() and not is_number_of_tokens:
            if refused.type == left:
                yield f"All of {it} {after} .. is of another type than its context wants."
            else:
                yield f"Before {after} {left} is wanted."
    if refused.tokens[refused.number - 2 : refused.number - 1] == ["#"]:
        yield f"After #{before} a product with at least so many parts is wanted."


def hints(refused: Refused) -> Iterator[str]:
    """Yields what is written in place of what is often meant."""
    it, tokens, is_root = refused.it, refused.tokens, not refused.number
    colour = refused.place["colour"] if refused.place else ""
    kind = refused.net.declared.kind_of(colour)
    if refused.beside("+", "-") and refused.type in JOINED:
        yield JOINED[refused.type]
    if refused.beside("^") and refused.type == "an integer":
        yield "^ joins strings: a number has no text here, and a power is a product, x * x."
    if refused.beside("::"):
        yield "x :: l puts an item in front of a list, and l ^^ [x] at its end."
    if it == "[" and (refused.before in OF_CONDITIONS or refused.site == GUARD):
        yield (
            "Brackets stand round the conditions of a whole guard alone: elsewhere they are joined"
            " by andalso."
        )
    is_tuple = it == "(" and (",", 1) in zip(tokens, depths_of(tokens))
    if is_tuple and is_root and refused.site == GUARD:
        yield "Several conditions stand in [ ], and not in ( )."
    if refused.after == "=" and is_root and refused.site in ARCS:
        yield "= compares two values, and assigns nothing: on the arc stands the new value alone."
    if kind == "unit" and refused.type == "an integer":
        yield f"The only value of {colour} is (): {it}`() is {it} tokens."
    if it == "empty" and (kind == "list" or refused.beside("::", "^^", "=", "<>")):
        yield "The empty list is written []."
