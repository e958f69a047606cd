"""The changed nets of the tables of docs/*.md: what a row's first column says, done to the document that the head of the table names.

A table whose head is `NET.json` with | Prints has a row for each change. What it prints is an error line, with the status of its
kind; or `the report, as without`, which is that of the net; or `the report, with` a line of it, in code. A row whose change is not
known here fails.
"""
import copy
import json
import re

STATUSES = {"document": 3, "inscription": 4, "net": 5}
REFUSED = re.compile(r"(`+) ?(error (\w+) .*?) ?\1")
WITH_LINE = re.compile(r"the report, with (`+) ?(.*?) ?\1")


class Change:
    """A row of such a table: its position, the net, what is changed, and what is printed."""

    def __init__(self, place, net, change, prints):
        self.place, self.net, self.change, self.prints = place, net, change, prints

    def document(self, text):
        """Returns the changed document, as bytes; the text is that of the net."""
        if self.change not in CHANGES[self.net]:
            raise ValueError(f"{self.change}: tests/changes.py does not know this change")
        change = CHANGES[self.net][self.change]
        document = json.loads(text)
        changed = change(document)
        return changed if isinstance(changed, bytes) else json.dumps(document).encode()

    def wrong(self, status, printed, unchanged):
        """Returns what is wrong with what was printed, and with the status; `unchanged` is what the net itself prints."""
        lines = printed.decode().splitlines()
        if found := REFUSED.match(self.prints):
            return [] if (lines, status) == ([found[2]], STATUSES[found[3]]) else [f"it printed {lines[:2]}, with status {status}"]
        if self.prints.startswith("the report, as without"):
            return [] if (printed, status) == (unchanged, 0) else ["it is not the report of the net as it stands"]
        if found := WITH_LINE.match(self.prints):
            return [] if found[2] in lines and status == 0 else [f"{found[2]} is no line of it, or its status {status} is not 0"]
        raise ValueError(f"{self.prints}: says neither what line is printed nor what report")


def part(document, *path):
    """Returns the part of a document at a path of keys, numbers and names of list items."""
    for at in path:
        if isinstance(document, list) and isinstance(at, str):
            document = next(it for it in document if it.get("name") == at)
        else:
            document = document[at]
    return document


def put(*path):
    """Puts the last item of the path at the key before it."""
    *to, key, value = path

    def change(document):
        part(document, *to)[key] = copy.deepcopy(value)

    return change


def without(*path):
    """Leaves out what stands at the path."""
    *to, key = path

    def change(document):
        del part(document, *to)[key]

    return change


def more(*path):
    """Adds the last item of the path to the list before it; a list of items adds each."""
    *to, items = path

    def change(document):
        part(document, *to).extend(items if isinstance(items, list) else [items])

    return change


def all_of(*changes):
    """Makes several changes."""

    def change(document):
        for it in changes:
            it(document)

    return change


def fusion(number, *members):
    return {"name": f"F{number}", "members": [{"module": module, "place": place} for module, place in members]}


def module(name, initial=None, parts=()):
    places = [{"name": "C", "colour": "INT", "initial": initial}] if initial else []
    subs = [{"name": f"s{i}", "module": it, "assign": []} for i, it in enumerate(parts)]
    return {"name": name, "places": places, "transitions": [], "arcs": [], "subs": subs}


def y_in_the_guard(text):
    """Puts a variable y into the guard of t alone, measures it, and edits that guard before a second run."""
    phases = [{"start": "initial"}, {"start": "initial", "edits": [{"kind": "guard", "transition": "Top/t", "text": text}]}]
    return all_of(
        more("declarations", ["var y : INT;"]),
        put(*TOP, "transitions", "t", "guard", "y = x"),
        put("monitors", [{"name": "m", "kind": "value", "transition": "Top/t", "expr": "y"}]),
        put("phases", phases),
    )


TOP, PROTOCOL, NETWORK = ("modules", "Top"), ("modules", "Protocol"), ("modules", "Network")
SUB = (*PROTOCOL, "subs", 0)
EDIT = ("phases", 2, "edits", 0)
SECOND_TEXTS = ("``n`()``", "`2`", "``(4 div 0)`()``", "``~2`()``", "`empty`")
AN_ARC = {"place": "A", "transition": "t", "to": "transition", "expr": "empty"}

CHANGES = {
    "three_tokens": {
        "its last `}` missing": lambda document: json.dumps(document).encode()[:-1],
        "the key `x` in the document": put("x", 1),
        "the arc to B without its place": without(*TOP, "arcs", 1, "place"),
        'the arc to B with `"to": "out"`': put(*TOP, "arcs", 1, "to", "out"),
        'the key `"port": "inout"` in the place B': put(*TOP, "places", "B", "port", "inout"),
        '`"version": 1.5`': put("version", 1.5),
        '`"version": 1.0`': put("version", 1.0),
        "the place B named `A`": put(*TOP, "places", "B", "name", "A"),
        "the place B named `B/1`": put(*TOP, "places", "B", "name", "B/1"),
        '`"version": 2`': put("version", 2),
        "1,025 declarations": more("declarations", [f"var v{i} : INT;" for i in range(1023)]),
        "257 modules": more("modules", [module(f"M{i}") for i in range(256)]),
        "65 arcs at t": more(*TOP, "arcs", [AN_ARC] * 63),
        "a monitor without a kind": put("monitors", [{"name": "m", "transition": "Top/t"}]),
        "a monitor of the kind `counts`": put("monitors", [{"name": "m", "kind": "counts", "transition": "Top/t"}]),
        "a monitor of the kind `count` with the key `n`": put("monitors", [{"name": "m", "kind": "count", "transition": "Top/t", "n": 1}]),
        "a monitor of the transition `Top/`": put("monitors", [{"name": "m", "kind": "count", "transition": "Top/"}]),
        "a monitor that stops at occurrence 0": put("monitors", [{"name": "m", "kind": "stop_count", "transition": "Top/t", "n": 0}]),
        "a monitor of the kind `count`": put("monitors", [{"name": "m", "kind": "count", "transition": "Top/t"}]),
        "65 phases": put("phases", [{"start": "initial"}] * 65),
        'a first phase with `"start": "here"`': put("phases", [{"start": "here"}]),
        "an edit of the kind `delay` in the first phase": put(
            "phases", [{"start": "initial", "edits": [{"kind": "delay", "transition": "Top/t", "text": "3"}]}]
        ),
        "a phase": put("phases", [{"start": "initial"}]),
        "the key `port` in the place B, with `in`": put(*TOP, "places", "B", "port", "in"),
        "the arc to B without `expr`": without(*TOP, "arcs", 1, "expr"),
        "the delay `5` for t": put(*TOP, "transitions", "t", "delay", "5"),
        "the delay `x @+ 5` for t": put(*TOP, "transitions", "t", "delay", "x @+ 5"),
        "the inscription `x @+ 5` on the arc from A": put(*TOP, "arcs", 0, "expr", "x @+ 5"),
        "the inscription `x @+ 5` on the arc to B": put(*TOP, "arcs", 1, "expr", "x @+ 5"),
        "the declaration `colset INT = int timed;`": put("declarations", 0, "colset INT = int timed;"),
        "the inscription `y` on the arc to B": put(*TOP, "arcs", 1, "expr", "y"),
        "the inscription `$` on the arc to B": put(*TOP, "arcs", 1, "expr", "$"),
        "the declaration `var x INT;`": put("declarations", 1, "var x INT;"),
        "the colour `INTS` for B": put(*TOP, "places", "B", "colour", "INTS"),
        "the initial marking ``1`x`` on A": put(*TOP, "places", "A", "initial", "1`x"),
        "the guard `time > 3` for t": put(*TOP, "transitions", "t", "guard", "time > 3"),
        "the declaration `var y : INT;` and the inscription `y` on the arc to B": all_of(
            more("declarations", ["var y : INT;"]), put(*TOP, "arcs", 1, "expr", "y")
        ),
        "the same, and the guard `y = x + 1`": all_of(
            more("declarations", ["var y : INT;"]), put(*TOP, "arcs", 1, "expr", "y"), put(*TOP, "transitions", "t", "guard", "y = x + 1")
        ),
        "the guard `x > 7`": put(*TOP, "transitions", "t", "guard", "x > 7"),
        "the declaration `var y : INT;`, the guard `y = x`, a monitor of the value `y`, and a second phase that starts `initial` with the guard `x > 0`": y_in_the_guard("x > 0"),
        **{f"the same, with the guard `{text}` in that phase": y_in_the_guard(text) for text in ("y > x", "y = x + 1")},
        "a further module, with a place C of the initial marking ``1`x``": more("modules", module("M", "1`x")),
        "the same, with ``1`(7 div 0)`` there": more("modules", module("M", "1`(7 div 0)")),
    },
    "measured_queue": {
        "the place `Desk/Line` for `queue`": put("monitors", "queue", "place", "Desk/Line"),
        "the place `Queue` for `queue`": put("monitors", "queue", "place", "Queue"),
        "the transition `Desk/Queue` for `served`": put("monitors", "served", "transition", "Desk/Queue"),
        **{
            f"the text `{text}` for `waiting`": put("monitors", "waiting", "expr", text)
            for text in ("came", "waited > 3", "time - waited", "if waited > 3 then 1 else 0", "10 div waited")
        },
        "a monitor `crowded` that stops at 2 in the queue": more(
            "monitors", {"name": "crowded", "kind": "stop_size", "place": "Desk/Queue", "op": "at_least", "n": 2}
        ),
    },
    "production_cell": {
        "the place `Cell/press/In` for `press`": put("monitors", "press", "place", "Cell/press/In"),
        "the place `Cell/Press In` for `press`": put("monitors", "press", "place", "Cell/Press In"),
        "the transition `Cell/load` for `loaded`": put("monitors", "loaded", "transition", "Cell/load"),
        "the transition `Move/take` for `loaded`": put("monitors", "loaded", "transition", "Move/take"),
    },
    "packing_line": {
        **{f"the transition `{name}` for the edit": put(*EDIT, "transition", name) for name in ("Line/close", "fill")},
        **{f"the text `{text}` for the edit": put(*EDIT, "text", text) for text in ("k <", "j < 4", "k + 4", "k < spent", "true")},
    },
    "dispatching_rules": {
        "the place `Shop/Desks` for the second edit": put(*EDIT, "place", "Shop/Desks"),
        **{f"the text {code} for the second edit": put(*EDIT, "text", code.strip("` ")) for code in SECOND_TEXTS},
    },
    "simple_protocol": {
        '`"top": "Net"`': put("top", "Net"),
        "the module `Net` for `Sub Network`": put(*SUB, "module", "Net"),
        "a fusion set of the place A of `Net`": put("fusions", [fusion(1, ("Net", "A"))]),
        "the first arc of `Protocol` at the place `E`": put(*PROTOCOL, "arcs", 0, "place", "E"),
        "the socket `E` for the port A": put(*SUB, "assign", 0, "socket", "E"),
        "the port `E` for the socket A": put(*SUB, "assign", 0, "port", "E"),
        "the place A of `Network` without `port`": without(*NETWORK, "places", "A", "port"),
        "a fusion set of the place E of `Protocol`": put("fusions", [fusion(1, ("Protocol", "E"))]),
        "the first arc of `Network` at `Send Packet`": put(*NETWORK, "arcs", 0, "transition", "Send Packet"),
        "a substitution transition for `Protocol` in `Network`": put(*NETWORK, "subs", module("", None, ["Protocol"])["subs"]),
        "the port A with `io`": put(*NETWORK, "places", "A", "port", "io"),
        "the arc from `Sub Network` to D left out": without(*PROTOCOL, "arcs", 15),
        "the colour `DATA` for the place C of `Network`": put(*NETWORK, "places", "C", "colour", "DATA"),
        "a fusion set of `Next Send` and `Data Received`": put("fusions", [fusion(1, ("Protocol", "Next Send"), ("Protocol", "Data Received"))]),
        "A assigned to A once more, as the fifth assignment": more(*SUB, "assign", {"port": "A", "socket": "A"}),
        "a fusion set of the place A of `Network`": put("fusions", [fusion(1, ("Network", "A"))]),
        "two fusion sets, both of `Next Send`": put("fusions", [fusion(i, ("Protocol", "Next Send")) for i in (1, 2)]),
        "modules `M1` to `M12`, each but the last with two substitution transitions for the next, and one for `M1` in `Protocol`: 4,097 instances": all_of(
            more("modules", [module(f"M{i}", None, [f"M{i + 1}"] * 2 if i < 12 else []) for i in range(1, 13)]),
            more(*PROTOCOL, "subs", {"name": "Many", "module": "M1", "assign": []}),
        ),
        "16,373 further places in `Protocol`, which are 16,385 in all": more(*PROTOCOL, "places", [{"name": f"P{i}", "colour": "NO"} for i in range(16373)]),
        "16,380 further transitions in `Protocol`, which are 16,385 in all": more(*PROTOCOL, "transitions", [{"name": f"t{i}"} for i in range(16380)]),
        "the initial marking ``1`(1 div 0)`` on `Next Send`": put(*PROTOCOL, "places", "Next Send", "initial", "1`(1 div 0)"),
        "the same on the place D of `Network`": put(*NETWORK, "places", "D", "initial", "1`(1 div 0)"),
        "``1`2`` on the place C of `Protocol`, and ``1`1`` on that of `Network`": all_of(
            put(*PROTOCOL, "places", "C", "initial", "1`2"), put(*NETWORK, "places", "C", "initial", "1`1")
        ),
    },
}
