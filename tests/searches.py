"""The rows of tests/searches.txt: documents of one transition, how many tries its search makes in the initial marking, and what it finds.

    PLACES | GUARD | ARCS => ANSWERS

PLACES  places with `; ` between them, each a name, a colour set and an initial marking, if it has one: A INT 1`7
GUARD   the guard, or nothing
ARCS    arcs with `; ` between them: A>x to the transition, >A x to the place
ANSWERS answers with `; ` between them, each of which has to be right:
        N tries         how many tries it makes
        BINDING@TIME .. the enabled bindings in order, each with its least time
        N found         how many there are
        nothing         that there is none
        then @TIME ..   the least times of the enabled elements from the time 3 on

All documents have the declarations below. A line that begins with # is a comment. <1..3: a#> stands for a1a2a3. The program
cpn_test_program is asked to `search 3`, and prints what it finds as the answer of the call.
"""
import json
import re

DECLARATIONS = [
    "colset INT = int;",
    "colset T = int timed;",
    "colset D = int with 1..3;",
    "colset BOOL = bool;",
    "colset UNIT = unit;",
    "colset TEXT = string;",
    "colset LIGHT = with amber | red;",
    "colset LIST = list INT;",
    "colset REPLY = union none + some : LIST;",
    "colset PAIR = product INT * INT;",
    "colset PICK = union one : INT + two : PAIR;",
    "colset BOTH = product PICK * LIST;",
    "colset REST = product LIST * REPLY;",
    "var x, y, a, b, c : INT;",
    "var d, e : D;",
    "var p, q, r, s, t, u, v, w : BOOL;",
    "var k1 : UNIT;",
    "var k2 : TEXT;",
    "var k3 : LIGHT;",
    "var k4 : LIST;",
    "var k5 : REPLY;",
]
CALL = "search 3"
ANSWER = re.compile(r"(\d+ tries)((?: \{.*\}@\d+)*); from then((?: @\d+)*)")


def rows_of(path, lines):
    """Yields the rows of a table, whose lines come with their numbers: the place, the line, the document and the answers."""
    for number, line in lines:
        if line and not line.startswith("#"):
            asked, _, answers = line.partition(" => ")
            yield f"{path}:{number}", line, asked, answers.split("; ")


def document_of(asked, written):
    """Returns the document of a row; `written` gives a text's bytes, with its repetitions written out."""
    places, guard, arcs = written(asked).decode().split(" | ")
    transition = {"name": "t"} | ({"guard": guard} if guard else {})
    module = {"name": "Top", "places": [place_of(it) for it in places.split("; ")], "transitions": [transition]}
    module["arcs"] = [arc_of(it) for it in arcs.split("; ")]
    return {"version": 1, "declarations": DECLARATIONS, "top": "Top", "modules": [module]}


def place_of(text):
    name, colour, *initial = text.split(" ", 2)
    return {"name": name, "colour": colour} | ({"initial": initial[0]} if initial else {})


def arc_of(text):
    place, _, expr = text.partition(">")
    way = "transition" if place else "place"
    if not place:
        place, _, expr = expr.partition(" ")
    return {"place": place, "transition": "t", "to": way, "expr": expr}


def wrong_answers(answers, table):
    """Returns what is wrong with the answers of a row, by the table that the program printed: nothing where it is right."""
    cells = table.splitlines()[-1].split(" | ") if table else [""]
    found = ANSWER.fullmatch(cells[1]) if cells[0] == CALL else None
    if not found:
        return [f"no answer: {table[-200:]!r}"]
    tries, bindings, times = found[1], found[2].strip(), "then" + found[3]
    told = {tries, times, bindings or "nothing", f"{len(re.findall('}@', bindings))} found"}
    return [f"wanted {it}, and it printed {cells[1][:200]}" for it in answers if it not in told]
