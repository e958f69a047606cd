"""Bytes that are no JSON: where, and what is probably the matter."""
from __future__ import annotations

import re
from json.decoder import JSONDecodeError
from typing import Iterator

from .written import Written, line_and_column, marked

QUOTE = (
    r"A quote within a text is written \" in JSON: \"ab\" is the string ab of the language."
)
NUMBER = (
    "A number is written in digits, with no zero in front; anything else stands in double quotes."
)
# What is before and after the place, with a bar between; how the message begins; and what is then
# the matter.
MATTERS = (
    (r"\|\Z", "", "The text ends before a bracket or a brace is closed."),
    (r",\|[]}]", "", "A comma stands after the last item: leave it out."),
    (r"\|\ufeff", "", "The file begins with a byte order mark: save it as UTF-8 without one."),
    (r"\|[“”„‘’]", "", "Texts stand in the plain quotes of ASCII, and not in typographic ones."),
    (r"\|'", "", "Texts stand in double quotes, not in single ones."),
    (r"\|[/#]", "", "JSON has no comments."),
    (r"\|", "a colon", "A colon stands between a key and its value."),
    (
        r"\|",
        "the end",
        "A bracket is closed too early, or a second document follows: a file has one.",
    ),
    (
        r"[]}\w\"]\|[]}]",
        "a comma",
        "Another bracket is open here: each [ is closed by ], and each { by }.",
    ),
    (r"\"\|[^\s:\"{\[0-9tfn-]", "a comma", QUOTE),
    (r"\|[]},]", "a value", "A value is missing before it."),
    (r"\|(?:True|False|None)\b", "", "JSON writes true, false and null."),
    (r"\|[+.]", "a value", "A number begins with a digit, or with - and a digit."),
    (r"[:{,\[]\|\w", "a ", "A key or a text has to stand in double quotes."),
    (r"[]}\w\"]\|[\[{\"\w-]", "a comma", "A comma is missing before it."),
    (r"\|\\", "", r"In JSON a backslash is written \\, and a quote within a text \"."),
    (r"\|\"", "Unterminated", "The text that begins here has no closing quote."),
    (r"\|[\0-\x1f]", "", r"A line break within a text is written \n; a blank does as well."),
)


def json_facts(data: bytes) -> Iterator[str]:
    """Yields where the bytes are no JSON, with the line, and what is the matter."""
    try:
        Written(data.decode())
    except UnicodeDecodeError as problem:
        text = data[: problem.start].decode()
        place = line_and_column(text, len(text)).capitalize()
        yield f"{place}: the bytes from here on are no UTF-8."
    except JSONDecodeError as problem:
        yield f"{line_and_column(problem.doc, problem.pos).capitalize()}: {problem.msg}."
        yield from marked(problem.doc, [problem.pos])
        yield matter_of(problem)


def matter_of(problem: JSONDecodeError) -> str:
    """Returns what is probably the matter, or an empty text."""
    text, at = problem.doc, problem.pos
    before, after = text[at - 1 : at], text[at : at + 1]
    if problem.msg.startswith("a comma"):
        if before == '"' and after not in ("", "]", "}"):
            return QUOTE  # what follows at once after a closing quote was meant to be in the text
        if before.isdigit() and after.isalnum():
            return NUMBER
    context = f"{text[:at].rstrip()[-1:]}|{text[at : at + 6]}"
    for form, begins, words in MATTERS:
        if problem.msg.startswith(begins) and re.match(f".?{form}", context, re.S):
            return words
    return ""
