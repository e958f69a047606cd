"""Refusals: the program accepts no such options, or no such document."""
from __future__ import annotations

from typing import Optional, Tuple

from .explaining import LINE, explain


class Refusal(Exception):
    """The program has refused its options or a document, by an error line.

    status      the exit status: docs/REPORT.md has them
    line        the error line, as 'error inscription /modules/0/arcs/1/expr type 1 unknown weight'
    place       what is refused: the JSON pointer of a part of the document, which is empty for all
                of it; of an initial marking the name of its place; of the options the flag
    cause       the refusal as docs/REFUSALS.md has it, as 'type 1 unknown'
    detail      what else the line tells, as 'weight'
    explanation what is wrong, its usual cause and its cure, in words
    """

    def __init__(self, status: int, line: str, document: str = "", flag: str = ""):
        super().__init__(status, line, document, flag)
        self.status, self.line, self.document = status, line, document
        found = LINE.fullmatch(line)
        if not found:
            raise ValueError(f"this is no error line: {line!r}")
        self.cause = found["cause"]
        self.place, self.detail = place_and_detail(found["text"], self.cause, found["detail"] or "")
        self.place = self.place or flag

    @property
    def explanation(self) -> str:
        return explain(self.document, self.line)

    def __str__(self) -> str:
        said = self.explanation
        return said if said.startswith(self.line) else f"{self.line}\n\n{said}".rstrip()


def place_and_detail(text: Optional[str], cause: str, detail: str) -> Tuple[str, str]:
    """Returns what is refused, and what else an error line tells of it: by the pointer of a text,
    where there is one, the cause, and what follows that."""
    if text:
        return text, detail
    if cause == "document 5 version":
        return "/version", ""
    if cause == "net flat 4 init":
        place, _, fault = detail.rpartition(" ")
        return place, fault
    if cause == "net flat 5 initial_differs" or detail.startswith("/"):
        return detail, ""
    return "", detail
