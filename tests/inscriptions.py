"""The rows of tests/texts/*.txt and of the blocks ```texts of docs/*.md: a text of the inscription language at one place of
nets/every_colour.json, and what becomes of it.

    WHERE: TEXT ==> ANSWER

WHERE   decl            a further declaration, after the others
        colour          the colour set of the place Here
        init COLOUR     the initial marking of Here, of that colour set
        out COLOUR      the arc from t to Here, of that colour set
        in COLOUR       an arc from Here to t instead
        both COLOUR     an arc both ways instead
        guard           the guard of t
        delay           the delay of t
        transition      a further key of t with its value, in JSON
        place           such a key of Here, in place of its own where it has that key
ANSWER  TOKENS          the document is accepted, t occurs once, and these tokens are on Here at the end
        ok              the same with 1`7 on Here, as without the text
        .. of N         the same, and t is enabled with N bindings at first. They are ordered by their values, numbered from 0,
                        and word 0 of seed 0, which is 2354861276966075475, modulo N is the number of the one that occurs
        accepted        the document is accepted, whatever the report says
        idle            it is accepted, and t is not enabled
        fault NAME      the inscription of the arc, or the initial marking, has that fault
        PART K NAME ..  the text is refused: error inscription POINTER PART K NAME .., with the pointer of the text, or with
                        that of t where its variables are refused
        document ..     the document is refused: error document .., with the whole pointer

A line `declared: DECLARATION; DECLARATION; ..` puts declarations after those of the net, for the rows that follow it, up to
a blank line; each ends with its `;`, and no other `;` stands in it. A line `tokens: TOKENS` makes these the initial marking of
Here, written as a report prints it, for the rows that follow it, up to a blank line or the next such line. A line that begins
with # is a comment. In declarations, texts and answers \\xNN stands for a byte, and <1..3: a#> stands for a1a2a3.
"""
import json
import re

import scripts  # by which the package is found
from nockmango.model.faults import FAULTS

NET = "nets/every_colour.json"
ROW = re.compile(r"(\w+(?: \w+)?): (.*) ==> (.*)")
TOKENS = {
    "x": "7",
    "y": "~2",
    "b": "true",
    "s": '"ab"',
    "c": "amber",
    "p": '(1,"a")',
    "l": "[1,2,3]",
    "r": "some(5)",
    "d": "2",
    "u": "()",
}
WAYS = re.compile(r"(.*) of (\d+)")
ELEMENT = "Top/t {" + ", ".join(f"{name}={value}" for name, value in TOKENS.items()) + "}"
ARC = "/modules/0/arcs/0/expr"
POINTERS = {
    "colour": "/modules/0/places/0/colour",
    "init": "/modules/0/places/0/initial",
    "out": ARC,
    "in": ARC,
    "both": ARC,
    "guard": "/modules/0/transitions/0/guard",
    "delay": "/modules/0/transitions/0/delay",
}
OF_VARIABLES = re.compile(r"type (5 not_bindable|8 too_many variables)\b")


class Row:
    """A row, with the declarations and the tokens above it."""

    def __init__(self, place, declared, tokens, line):
        found = ROW.fullmatch(line)
        if not found:
            raise ValueError(f"{place}: no row: {line}")
        self.place, self.line, self.declared, self.tokens = place, line, declared, tokens
        self.kind, _, self.colour = found[1].partition(" ")
        self.text, self.answer = found[2], found[3]


def rows_of(name, lines):
    """Yields the rows of some lines, which are numbered."""
    declared, tokens = [], None
    for number, line in lines:
        if not line:
            declared, tokens = [], None
        elif line.startswith("declared: "):
            declared = [*declared, line.removeprefix("declared: ")]
        elif line.startswith("tokens: "):
            tokens = line.removeprefix("tokens: ")
        elif not line.startswith("#"):
            yield Row(f"{name}:{number}", declared, tokens, line)


def document_of(row, net, written):
    """Returns the row's document; `written` gives a text's bytes, with its repetitions written out."""

    def text(cell):
        return written(cell).decode()

    document = json.loads(net)
    module = document["modules"][0]
    here, arc = module["places"][0], module["arcs"][0]
    if row.declared:
        document["declarations"] += re.findall(r"[^\s;][^;]*;", text(" ".join(row.declared)))
    if row.colour:
        here["colour"] = row.colour
    if row.tokens:
        here["initial"] = row.tokens
    if row.kind == "decl":
        document["declarations"].append(text(row.text))
    elif row.kind == "colour":
        here["colour"] = text(row.text)
    elif row.kind == "init":
        here["initial"] = text(row.text)
        del module["arcs"][0]
    elif row.kind in ("out", "in", "both"):
        arc |= {"to": {"out": "place", "in": "transition", "both": "both"}[row.kind], "expr": text(row.text)}
    elif row.kind in ("guard", "delay"):
        module["transitions"][0][row.kind] = text(row.text)
    elif row.kind in ("transition", "place"):
        module[f"{row.kind}s"][0] |= json.loads("{" + text(row.text) + "}")
        arc["place"] = here["name"]
    else:
        raise ValueError(f"a text does not stand at {row.kind}")
    return document


def answer_of(row, document, written):
    """Returns what the row's document prints without a trace, and the exit status; `written` is as above."""
    answer, ways = written(row.answer).decode(), 1
    if found := WAYS.fullmatch(answer):
        answer, ways = found[1], int(found[2])
    if re.match("(lex|syntax|type) ", answer):
        return f"error inscription {pointer_of(row, document)} {answer}\n", 4
    if answer.startswith("document "):
        return f"error {answer}\n", 3
    if answer.startswith("fault "):
        name = answer.removeprefix("fault ")
        if row.kind == "init":
            return f"error net flat 4 init Top/Here {name}\n", 5
        return report_of(f"fault {FAULTS.index(name) + 1} {name} {ELEMENT}", row.tokens or "empty", False, 1), 6
    if answer == "idle":
        return report_of("dead", row.tokens or "empty", False, 0), 0
    return report_of("dead", "1`7" if answer == "ok" else answer, True, ways), 0


def pointer_of(row, document):
    """Returns the pointer that the refusal of the row's text has."""
    if OF_VARIABLES.match(row.answer):
        return "/modules/0/transitions/0"
    if row.kind == "decl":
        return f"/declarations/{len(document['declarations']) - 1}"
    return POINTERS[row.kind]


def report_of(end, here, occurs, ways):
    """Returns the report of a run that begins with so many enabled bindings, and of which one occurs or none."""
    left = 0 if occurs else ways
    lines = ["report 1", f"run 0 initial 0 ready {ways} next {0 if ways else 'none'}", f"end {end}"]
    lines += [f"occurrences {int(occurs)}", "clock 0", f"place Top/Here {here}"]
    lines += [f"place Top/{name.upper()} " + ("empty" if occurs else f"1`{value}") for name, value in TOKENS.items()]
    lines += [f"ready {left}", f"next {0 if left else 'none'}"]
    lines += [f"probe 0 moments {int(occurs)}", f"probe 1 streak {int(occurs)}", f"total {int(occurs)}"]
    return "\n".join(lines) + "\n"
