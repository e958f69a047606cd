"""The picture of a net document, as a graph for Graphviz.

Each module is a frame with its name. A place is an ellipse with its name, its colour set and its
initial marking; a port has its tag, `in`, `out` or `io`, and a member of a fusion set the name of
the set. A transition is a box with its name, its guard in brackets and its delay after `@+`; a
substitution transition has a double frame, and the name of its module. An arc has its inscription,
and two heads where it leads both ways; at a substitution transition it has the names of the ports
of its place.

The document is not checked here: the program does that. Of one that it refuses there may be no
picture.
"""
from __future__ import annotations

import dataclasses
import html
import json
import subprocess
import textwrap
from typing import Iterator, Sequence

WIDTH = 34
HELD = "\x01"
ROOM = "n" * 18  # what a picture without tokens has where the tokens of a place will stand
HEAD = (
    "digraph net {\n"
    '  graph [bgcolor="white", fontname="Helvetica", fontsize=12, labeljust="l", nodesep=0.35, '
    'ranksep=0.4, style="rounded", color="gray60"]\n'
    '  node [fontname="Helvetica", fontsize=11, style="filled", margin="0.08,0.04"]\n'
    '  edge [fontname="Helvetica", fontsize=9, arrowsize=0.7, color="gray25"]'
)
NAME = "<b>{}</b>"
SMALL = '<font point-size="9">{}</font>'
COLOUR = '<font point-size="9" color="gray35"><i>{}</i></font>'
MARKING = '<font point-size="9" color="darkgreen">{}</font>'
TAG = '<font point-size="9" color="blue3">{}</font>'
FUSED = '<font point-size="9" color="purple">fusion {}</font>'
MODULE = '<font point-size="9" color="blue3">{}</font>'


@dataclasses.dataclass(frozen=True)
class Element:
    """A node or an edge of the graph: the id by which a script finds it in the picture, what stands
    before its attributes, and these."""

    identity: str
    head: str
    attributes: str

    def line(self, with_id: bool) -> str:
        identity = f'id="{self.identity}", ' if with_id else ""
        return f"    {self.head} [{identity}{self.attributes}]"


# ---- labels


def quoted(text: str) -> str:
    """Returns a name as Graphviz has it."""
    return json.dumps(text)


def held(text: str, depth: int) -> str:
    """Returns a text with its blanks held fast where they stand in a string, or deeper in brackets
    than that."""
    made, level, in_string, before = "", 0, False, ""
    for it in text:
        in_string ^= it == '"' and before != "\\"
        level += 0 if in_string else (it in "([") - (it in ")]")
        made += HELD if it == " " and (in_string or level > depth) else it
        before = "" if before == "\\" else it
    return made


def wrapped(text: str) -> str:
    """Returns a text in lines that are not too long. A line ends at a blank, mostly at one that
    stands in no brackets."""
    for depth in range(3):
        lines = textwrap.wrap(
            held(text, depth), WIDTH, break_long_words=False, break_on_hyphens=False
        )
        if all(len(line) <= WIDTH for line in lines):
            break
    return "<br/>".join(html.escape(line.replace(HELD, " "), quote=False) for line in lines)


def label_of(*parts: tuple[str, str]) -> str:
    """Returns a label of the parts that have a text, each in its form."""
    return "<" + "<br/>".join(form.format(wrapped(text)) for form, text in parts if text) + ">"


def guard_of(transition: dict) -> str:
    guard = transition.get("guard", "").strip()
    return guard if guard.startswith("[") or not guard else f"[{guard}]"


def delay_of(transition: dict) -> str:
    delay = transition.get("delay", "").strip().removeprefix("@+").strip()
    return delay and f"@+ {delay}"


# ---- the elements of a module


def place_of(name: str, place: dict, fusions: Sequence[str]) -> Element:
    label = label_of(
        (NAME, place["name"]),
        (COLOUR, place["colour"]),
        (MARKING, place.get("initial", "")),
        (TAG, place.get("port", "")),
        (FUSED, ", ".join(fusions)),
    )
    return Element(name, name, f'shape=ellipse, fillcolor="white", label={label}')


def transition_of(name: str, transition: dict) -> Element:
    label = label_of(
        (NAME, transition["name"]), (SMALL, guard_of(transition)), (SMALL, delay_of(transition))
    )
    return Element(name, name, f'shape=box, fillcolor="gray92", label={label}')


def substitution_of(name: str, sub: dict) -> Element:
    label = label_of((NAME, sub["name"]), (MODULE, sub["module"]))
    return Element(name, name, f'shape=box, peripheries=2, fillcolor="gray92", label={label}')


def arc_of(
    name: str, arc: dict, place: str, transition: str, text: str, leads_back: bool
) -> Element:
    tail, head = place, transition
    if arc["to"] == "place" and not leads_back:
        tail, head = transition, place
    label = " " + wrapped(text).replace("<br/>", " <br/> ") + " "
    form = TAG if transition.endswith("s") else "{}"
    further = ", dir=both" if arc["to"] == "both" else ", dir=back" if leads_back else ""
    return Element(name, f"{tail} -> {head}", f"label=<{form.format(label)}>{further}")


def order_of(module: dict) -> dict[str, int]:
    """Returns the number of each transition, and after them of each substitution transition."""
    both = [*module["transitions"], *module.get("subs", [])]
    return {it["name"]: at for at, it in enumerate(both)}


def leads_back(arcs: Sequence[dict], order: dict[str, int], arc: dict) -> bool:
    """Returns whether an output arc leads to a place from which an earlier transition, or the same
    one, takes tokens. It is drawn from the place to the transition, with its head at the place: the
    place then stands above all these transitions."""
    taking = [
        order[it["transition"]]
        for it in arcs
        if it["place"] == arc["place"] and it["to"] != "place"
    ]
    return arc["to"] == "place" and any(at <= order[arc["transition"]] for at in taking)


def ports_of(subs: Sequence[dict], arc: dict) -> str:
    """Returns the ports of the substitution transition that have the place of the arc as their
    socket."""
    found = [sub for sub in subs if sub["name"] == arc["transition"]]
    return ", ".join(
        it["port"] for sub in found for it in sub["assign"] if it["socket"] == arc["place"]
    )


def place_ids(number: int, module: dict) -> dict[str, str]:
    """Returns the id of each place of a module in the picture."""
    return {it["name"]: f"m{number}p{at}" for at, it in enumerate(module["places"])}


def transition_ids(number: int, module: dict) -> dict[str, str]:
    """Returns the id of each transition and each substitution transition of a module in the
    picture."""
    found = {it["name"]: f"m{number}t{at}" for at, it in enumerate(module["transitions"])}
    subs = {it["name"]: f"m{number}t{at}s" for at, it in enumerate(module.get("subs", []))}
    return {**found, **subs}


def arc_id(number: int, at: int) -> str:
    """Returns the id of an arc of a module in the picture."""
    return f"m{number}a{at}"


def elements_of(number: int, module: dict, fusions: Sequence[dict]) -> Iterator[Element]:
    """Yields the places, the transitions and the arcs of a module."""
    subs, arcs = module.get("subs", []), module["arcs"]
    places, transitions = place_ids(number, module), transition_ids(number, module)
    for it in module["places"]:
        member = {"module": module["name"], "place": it["name"]}
        sets = [fusion["name"] for fusion in fusions if member in fusion["members"]]
        yield place_of(places[it["name"]], it, sets)
    for it in module["transitions"]:
        yield transition_of(transitions[it["name"]], it)
    for it in subs:
        yield substitution_of(transitions[it["name"]], it)
    order = order_of(module)
    for at, arc in enumerate(arcs):
        ends = places[arc["place"]], transitions[arc["transition"]]
        text = ports_of(subs, arc) or arc.get("expr", "")
        yield arc_of(arc_id(number, at), arc, *ends, text, leads_back(arcs, order, arc))


def module_lines(
    number: int, module: dict, fusions: Sequence[dict], with_ids: bool = False
) -> Iterator[str]:
    """Yields the lines of a module: its frame, its places, its transitions and its arcs."""
    yield f"  subgraph cluster_{number} {{"
    yield f"    label={quoted(module['name'])}"
    for it in elements_of(number, module, fusions):
        yield it.line(with_ids)
    yield "  }"


# ---- the graph


def ranks_of(module: dict) -> int:
    """Returns how many rows of places and of transitions the module has, one below the other."""
    order = order_of(module)
    ranks = {place["name"]: 0 for place in module["places"]}
    for name in order:
        arcs = [arc for arc in module["arcs"] if arc["transition"] == name]
        taken = [ranks[arc["place"]] for arc in arcs if arc["to"] != "place"]
        ranks[name, "t"] = 1 + max(taken, default=0)
        for arc in arcs:
            if arc["to"] == "place" and not leads_back(module["arcs"], order, arc):
                ranks[arc["place"]] = max(ranks[arc["place"]], 1 + ranks[name, "t"])
    return 1 + max(ranks.values(), default=0)


def goes_across(modules: Sequence[dict]) -> bool:
    """Returns whether arcs are drawn from left to right: in several modules, which then stand one
    below the other, and in one with more than two nodes to a row. Otherwise they are drawn
    downwards."""
    nodes = [len(it["places"]) + len(order_of(it)) for it in modules]
    return len(modules) > 1 or nodes[0] > 2 * ranks_of(modules[0])


def lines_of_net(document: dict) -> Iterator[str]:
    """Yields the lines of the graph of a net document."""
    yield HEAD
    if goes_across(document["modules"]):
        yield "  rankdir=LR"
    for number, module in reversed([*enumerate(document["modules"])]):
        yield from module_lines(number, module, document.get("fusions", []))
    yield "}"


def lines_of_module(document: dict, number: int) -> Iterator[str]:
    """Yields the lines of the graph of one module, with an id for each place, each transition and
    each arc. Where the initial marking of a place would stand there is room for its tokens."""
    module = document["modules"][number]
    with_room = [{**place, "initial": ROOM} for place in module["places"]]
    yield HEAD
    if goes_across([module]):
        yield "  rankdir=LR"
    fusions = document.get("fusions", [])
    yield from module_lines(number, {**module, "places": with_room}, fusions, with_ids=True)
    yield "}"


def drawn(lines: Iterator[str]) -> str:
    """Returns the graph of these lines as an SVG element, drawn by Graphviz. FileNotFoundError says
    that its `dot` is not there, CalledProcessError that it refuses the graph."""
    ran = subprocess.run(
        ["dot", "-Tsvg"], input="\n".join(lines), capture_output=True, check=True, encoding="utf-8"
    )
    return ran.stdout[ran.stdout.index("<svg") :]
