"""Forms of CPN ML and of other languages, each found at the character where a text is refused.

What to write in their place stands in the table 'Forms of other languages' of docs/REFUSALS.md,
whose first row that fits counts, and examples in 'Coming from CPN Tools' of docs/INSCRIPTIONS.md.
"""
from __future__ import annotations

import difflib
import functools
import re
from dataclasses import dataclass
from typing import Dict, Iterable, Iterator, List, Match, Optional, Pattern, Tuple

from .declared import Declared
from .document import DECLARATION, GUARD, INPUT, OUTPUT
from .pages import CODE, INSCRIPTIONS, plain, rows, table
from .patterns import GENERAL, SPECIAL

LONGEST = 24  # characters of a form that are shown as they stand in the text
Example = Tuple[str, str]  # a text of CPN Tools, and what is written here


@dataclass(frozen=True)
class Form:
    """A form: its cell, why it is none here, what is written, how it is found, and at which sites
    alone it is one."""

    written: str
    why: str
    write: str
    patterns: Tuple[Pattern[str], ...]
    sites: Tuple[str, ...]

    def found(self, text: str, at: int, declared: Declared) -> Optional[Match[str]]:
        """Returns where the form stands, if that is why a text is refused at a character."""
        for pattern in self.patterns:
            for found in pattern.finditer(text):
                word = found.groupdict().get("word") or ""
                if is_at(found, text, at) and not declared.find(word):
                    return found
        return None


def is_at(found: Match[str], text: str, at: int) -> bool:
    """Returns whether a character belongs to what a pattern has found."""
    groups = found.groupdict()
    if groups.get("before") is not None:
        start, end = found.span("before")
        return start <= at < end or end <= at and not text[end:at].strip()
    start, end = found.span("at" if groups.get("at") is not None else 0)
    return start <= at < end or start == at == end


@functools.cache
def forms() -> List[Form]:
    """Returns the forms of the page, in its order."""
    made = []
    for written, (why, write) in rows("Forms of other languages").items():
        literal = rf"\b{written}\b" if written.isalpha() else re.escape(written)
        patterns, sites = SPECIAL.get(written, ((literal,), ()))
        compiled = tuple(re.compile(it, re.S) for it in patterns)
        made.append(Form(written, why, write, compiled, sites))
    return made


def form_at(
    text: str, ats: Iterable[int], site: str, declared: Declared, general: bool = True
) -> Optional[Tuple[Form, str]]:
    """Returns the form that is why a text is refused at one of some characters, and what is shown
    of it; a general one only where that is said."""
    for form in forms():
        if (not form.sites or site in form.sites) and (general or form.written not in GENERAL):
            for at in ats:
                if found := form.found(text, at, declared):
                    return form, shown(form, found)
    return None


def shown(form: Form, found: Match[str]) -> str:
    """Returns what of a form is shown: what stands in the text, where that is short, or else its
    cell."""
    groups = found.groupdict()
    texts = (groups.get("before"), groups.get("word"), found[0])
    short = [" ".join(it.split()) for it in texts if it and len(it) <= LONGEST]
    return (short or [form.written])[0]


def form_facts(
    text: str, ats: Iterable[int], site: str, declared: Declared, general: bool = True
) -> List[str]:
    """Returns how a form of another language, which stands where a text is refused, is written
    here."""
    found = form_at(text, [*ats], site, declared, general)
    if not found:
        return []
    form, there = found
    said = [f"{there} is no form of this language: {form.why}. Write {form.write}."]
    if example := likest(cpn_tools().get(form.written, []), text):
        old, new = example
        if new not in form.write:
            said.append(f"For example: {old} of CPN Tools is {new} here.")
    return said


def likest(examples: List[Example], text: str) -> Optional[Example]:
    """Returns the example whose old text is most like a text."""
    likeness = lambda it: difflib.SequenceMatcher(None, it[0], text).ratio()
    return max(examples, key=likeness, default=None)


# ---- coming from CPN Tools

CODE_AND_ANSWER = re.compile(r"(`+) ?(.+?) ?\1: (`+) ?(.+?) ?\3$")
SITES = {"decl": DECLARATION, "out": OUTPUT, "in": INPUT, "guard": GUARD}


@functools.cache
def cpn_tools() -> Dict[str, List[Example]]:
    """Returns of each form the examples of the table that have it."""
    found: Dict[str, List[Example]] = {}
    for where, old, answer, new in refused_rows():
        site = SITES.get(where.partition(" ")[0])
        form = form_at(old, refused_ats(old, answer), site, Declared([])) if site else None
        if form:
            found.setdefault(form[0].written, []).append((old, new))
    return found


def refused_rows() -> Iterator[Tuple[str, str, str, str]]:
    """Yields of each row of the table whose old text is refused where it stands, that text, its
    refusal, and what is written here."""
    for where, old, here, _ in table("Coming from CPN Tools", INSCRIPTIONS):
        code, refused = CODE.match(here), CODE_AND_ANSWER.match(old)
        if refused and refused[4] != "ok":
            yield plain(where), refused[2], refused[4], code[2] if code else plain(here)


def refused_ats(text: str, answer: str) -> List[int]:
    """Returns the characters of a text that a refusal means."""
    detail = answer.split(" ")[-1]
    if answer.endswith("end_of_text"):
        return [len(text)]
    if detail.isdigit():
        return [int(detail)]
    return [it.start() for it in re.finditer(rf"\b{re.escape(detail)}\b", text)]
