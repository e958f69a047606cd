"""An explanation: what the program printed for a document, in words, line by line."""
from __future__ import annotations

import re
from typing import Iterable, Iterator, List, Match, Optional, Sequence, Tuple

from .document import Document
from .endings import report_facts
from .form import form_facts
from .modules import flat_facts, flat_name_facts, module_facts
from .not_json import json_facts
from .options import option_facts
from .pages import refusals
from .texts import row_of, text_facts
from .written import line_and_column, marked

LINE = re.compile(
    r"error (?:inscription (?P<text>/\S+) )?"
    r"(?P<cause>words|read|long|"
    r"(?:document|lex|syntax|type|eval|net module|net flat|net monitor|net edit) [0-9] \w+)"
    r"(?: (?P<detail>.*))?"
)
LABELS = ("What:  ", "Cause: ", "Cure:  ")
# The row of a refusal, the pointer and the characters of a text that it means, and what is said.
Facts = Tuple[str, Optional[str], List[int], List[str]]


def explain(document: str, error_line: str) -> str:
    """Returns what an error line of the program, or a report, says of a document: the place, what
    is wrong, the usual cause, the cure."""
    return "\n".join(explained(document.encode(), [], error_line))


def explained(
    data: bytes, options: Sequence[str], printed: str, status: int = 0
) -> Iterator[str]:
    """Yields the explanation, line by line, of what the program printed for the bytes of a document
    under some options. Where it printed nothing, the status is all that there is to say."""
    lines = printed.splitlines()
    found = LINE.fullmatch(lines[0]) if lines else None
    net = document_of(data)
    if found:
        yield from [lines[0], ""]
        row, pointer, marks, said = refusal_facts(net, data, options, found)
        if pointer is not None:
            parts = pointer.split("/")[1:]
            yield f"Where: {net.words(parts)} ({net.place(pointer, *marks[:1])})"
            yield from marked(net.get(parts), marks) if marks else []
    elif lines:
        yield from [[it for it in lines if it.startswith("end ")][-1], ""]
        row, said = report_facts(net, lines)
    else:
        row = f"status {status}"
        said = [f"The program ended with status {status}, and printed nothing."]
    says, cause, cure = refusals().get(row, ["", "", ""])
    said = [says, *said] if found else [said[0], says, *said[1:]]
    yield from labelled(said, cause, cure)
    yield from twice_facts(net) if net else []


def labelled(said: Iterable[str], cause: str, cure: str) -> Iterator[str]:
    """Yields what is said, the usual cause and the cure, each with its label, sentence by
    sentence."""
    for label, sentences in zip(LABELS, (said, [cause], [cure])):
        for at, sentence in enumerate(filter(None, sentences)):
            yield (" " * len(label) if at else label) + sentence


def document_of(data: bytes) -> Optional[Document]:
    """Returns the document that some bytes are, if they are JSON."""
    try:
        return Document(data.decode())
    except ValueError:
        return None


def refusal_facts(
    net: Optional[Document], data: bytes, options: Sequence[str], found: Match[str]
) -> Facts:
    """Returns the row of a refusal, the pointer and the characters of a text that it means, and
    what is to be said."""
    pointer, key, detail = found["text"], found["cause"], found["detail"] or ""
    if key in ("words", "read", "long"):
        return key, None, [], option_facts(options) if key == "words" else []
    if key == "document 1 not_json":
        return key, None, [], [*json_facts(data)]
    if pointer:
        parts = pointer.split("/")[1:]
        if key.startswith("eval "):
            said = [f"The initial marking is {net.get(parts)}"]
            return key.split()[-1], pointer, [], said
        marks, said = text_facts(net, parts, key, detail)
        return row_of(net, parts, key, detail), pointer, marks, said
    if key.startswith("document"):
        row, pointer, said = form_facts(net, key, detail)
        return row, pointer, [], said
    name = key.split()[-1]
    if key.startswith("net module"):
        return key, detail, [], [*module_facts(net, name, detail.split("/")[1:])]
    if key.startswith(("net monitor", "net edit")):
        return key, detail, [], [*flat_name_facts(net, net.get(detail.split("/")[1:]))]
    pointer, said = flat_facts(net, name, detail)
    return key, pointer, [], said


def twice_facts(net: Document) -> Iterator[str]:
    """Yields a warning of each key that stands twice in an object."""
    for pointer, key, at in net.twice:
        words, place = net.words(pointer.split("/")[1:]), line_and_column(net.text, at)
        yield f'Warning: the key "{key}" stands twice in {words} ({place}): the last one counts.'
