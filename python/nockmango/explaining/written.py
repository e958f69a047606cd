"""A net document as its author wrote it: read from JSON as the program does, with the place in the
file where each value stands.

    written = Written(text)
    written.get(["modules", "0", "name"])      the value of a pointer
    written.place("/modules/0/name")           'line 7, column 16'
    written.words(["modules", "0"])            'module Bridge'
"""
from __future__ import annotations

import collections
import functools
import json
import re
from json.decoder import JSONDecodeError, scanstring
from typing import Any, Dict, Iterator, List, NoReturn, Pattern, Tuple

LEVELS = 127  # of JSON within one another
BLANKS = r"[ \t\n\r]*"
SCALAR = r"-?(?:0|[1-9][0-9]*)(?:\.[0-9]+)?(?:[eE][-+]?[0-9]+)?|true|false|null"
VALUE, KEY, COLON, END = (
    re.compile(f"{BLANKS}({form})") for form in (SCALAR + r'|[\[{"]', '"', ":", r"\Z")
)
MORE = {"}": re.compile(BLANKS + "([,}])"), "]": re.compile(BLANKS + r"([,\]])")}
CLOSED = {"}": re.compile(BLANKS + "(}?)"), "]": re.compile(BLANKS + r"(\]?)")}
UNIT = re.compile(r"\\u[dD][89abAB]..\\u....|\\u....|\\.|.", re.S)  # one character of a string
HALF = re.compile("[\ud800-\udfff]")
THINGS = {
    "modules": "module",
    "places": "place",
    "transitions": "transition",
    "subs": "substitution transition",
    "fusions": "fusion set",
    "monitors": "monitor",
}
KEYS = {
    "assign": "assignments",
    "expr": "inscription",
    "initial": "initial marking",
    "colour": "colour set",
    "to": "direction",
}
LONGEST, FROM = 110, 60  # characters of a line that are shown, and of it before the first mark


class Written:
    """Reads a JSON text as the program does; JSONDecodeError says where it is none.

    starts    where the value of each pointer begins
    twice     the pointer of each object with a key for the second time, the key, and its place
    """

    def __init__(self, text: str):
        self.text, self.at = text, 0
        self.starts: Dict[str, int] = {}
        self.twice: List[Tuple[str, str, int]] = []
        self.document = self.value("", LEVELS)
        self.take(END, "the end of the text")

    # ---- JSON

    def fail(self, message: str, at: int) -> NoReturn:
        raise JSONDecodeError(message, self.text, at)

    def take(self, form: Pattern[str], wanted: str) -> str:
        """Takes what has a form from the text, after blanks."""
        found = form.match(self.text, self.at)
        if not found:
            start = re.compile(BLANKS).match(self.text, self.at).end()
            self.fail(f"{wanted} has to stand here", start)
        self.at = found.end()
        return found[1]

    def string(self) -> str:
        """Takes the rest of a string, whose opening quote is taken."""
        start = self.at - 1
        found, self.at = scanstring(self.text, self.at)
        if HALF.search(found):
            self.fail("half of a surrogate pair stands in this text", start)
        return found

    def value(self, pointer: str, levels: int) -> Any:
        """Takes a value that may have so many levels."""
        sign = self.take(VALUE, "a value")
        self.starts[pointer] = start = self.at - len(sign)
        if sign == '"':
            return self.string()
        if sign in "[{":
            if not levels:
                self.fail(f"it is more than {LEVELS} levels deep", start)
            return self.parts(pointer, sign, levels - 1)
        if sign not in ("true", "false", "null") and abs(float(sign)) == float("inf"):
            self.fail("this number is too large", start)
        return json.loads(sign)

    def parts(self, pointer: str, sign: str, levels: int) -> Any:
        """Takes the rest of a list or an object, whose opening sign is taken."""
        found, closing = ({}, "}") if sign == "{" else ([], "]")
        more = not self.take(CLOSED[closing], closing)
        while more:
            key = len(found)
            if sign == "{":
                self.take(KEY, "a key in double quotes")
                start, key = self.at - 1, self.string()
                self.twice += [(pointer, key, start)] if key in found else []
                self.take(COLON, "a colon")
            part = str(key).replace("~", "~0").replace("/", "~1")
            value = self.value(f"{pointer}/{part}", levels)
            found.update({key: value}) if sign == "{" else found.append(value)
            more = self.take(MORE[closing], f"a comma or {closing}") == ","
        return found

    # ---- where a value stands, and what it is called

    def place(self, pointer: str, at: int = 0) -> str:
        """Returns where in the file a pointer's value stands, or the character `at` of its text."""
        start = self.starts[pointer]
        start += self.text[start] == '"'
        for _ in range(at):
            start = UNIT.match(self.text, start).end()
        return line_and_column(self.text, start)

    def get(self, parts: List[str]) -> Any:
        """Returns the value of a pointer, which is given as the list of its parts."""
        step = lambda it, part: it[int(part)] if isinstance(it, list) else it[part]
        return functools.reduce(step, parts, self.document)

    def module(self, name: str) -> Dict[str, Any]:
        return next(it for it in self.document["modules"] if it["name"] == name)

    def words(self, parts: List[str]) -> str:
        """Returns what a pointer's value is in words, as 'the initial marking of place A of module
        Top'."""
        if not parts:
            return "the document"
        *above, last = parts
        if not last.isdigit():
            return f"the {KEYS.get(last, last)}" + (f" of {self.words(above)}" if above else "")
        it, owner, kind, number = self.get(parts), above[:-1], above[-1], int(last) + 1
        known = it if isinstance(it, dict) else {}
        it = collections.defaultdict(lambda: f"number {number}", known)
        of_owner = f" of {self.words(owner)}" if owner else ""
        if kind == "arcs":
            return f"the arc {self.way(it, self.get(owner))}{of_owner}"
        if kind == "assign":
            return f"the assignment of port {it['port']} to socket {it['socket']}{of_owner}"
        if kind == "members":
            return f"the member {it['place']} of module {it['module']}{of_owner}"
        named = f"{THINGS[kind]} {it['name']}" if kind in THINGS else ""
        return (named or f"{kind.removesuffix('s')} {number}") + of_owner

    @staticmethod
    def way(arc: Dict[str, Any], module: Dict[str, Any]) -> str:
        """Returns from where an arc leads to where."""
        subs = module.get("subs", [])
        subs = subs if isinstance(subs, list) else []
        is_sub = arc["transition"] in [sub.get("name") for sub in subs if isinstance(sub, dict)]
        place = f"place {arc['place']}"
        transition = f"{'substitution ' * is_sub}transition {arc['transition']}"
        ways = {
            "transition": f"from {place} to {transition}",
            "place": f"from {transition} to {place}",
        }
        return ways.get(str(arc["to"]), f"between {place} and {transition}")

    def told(self, pointer: str) -> str:
        """Returns what a pointer's value is in words, with its place, as 'the guard of transition t
        of module Top (line 9, column 31)'."""
        return f"{self.words(pointer.split('/')[1:])} ({self.place(pointer)})"


def marked(text: str, ats: List[int]) -> Iterator[str]:
    """Yields the line of a text that has the first of some of its characters, and a line with a
    mark under each of them."""
    start = max(text.rfind("\n", 0, ats[0]) + 1, ats[0] - FROM)
    line = text[start : start + LONGEST].partition("\n")[0]
    yield "    " + "".join(it if it.isprintable() else "?" for it in line)
    marks = ["^" if start + i in ats else " " for i in range(len(line) + 1)]
    yield "    " + "".join(marks).rstrip()


def line_and_column(text: str, at: int) -> str:
    """Returns the line and the column of a character, both counted from 1."""
    return f"line {text.count(chr(10), 0, at) + 1}, column {at - text.rfind(chr(10), 0, at)}"
