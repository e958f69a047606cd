"""Warns of what a net document has that is accepted, and rarely meant.

    for warning in lint(document_text, reports):
        print(warning.name, warning.pointer, *warning.said)

Each warning is a function below, whose name it has. What it says, its usual cause and its cure
stand in the table 'What is accepted and rarely meant' of docs/REFUSALS.md. The document is taken to
be one that the program accepts.
"""
from __future__ import annotations

import collections
from dataclasses import dataclass
from typing import Any, Callable, Dict, Iterator, List, Optional, Sequence, Set, Tuple

from .explaining.bindings import TRIED, how_found, terms
from .explaining.document import Document
from .explaining.explanation import labelled
from .explaining.pages import rows
from .explaining.tokens import is_name, tokens_of
from .reports import Report

TABLE = "What is accepted and rarely meant"
NO_DELAY = ([], ["0"], ["@+", "0"])
Part = Dict[str, Any]
Found = Iterator[Tuple[str, str]]  # the pointers of what is warned of, and what is to be said of it


class NoNet(ValueError):
    """The text is no net document, or one that is refused by its form or by a rule of modules."""


@dataclass(frozen=True)
class Warned:
    """A warning: its name, the pointer of what it warns of, and where that is; what is to be said,
    its usual cause and its cure."""

    name: str
    pointer: str
    where: str
    said: Tuple[str, ...]
    cause: str
    cure: str

    def lines(self) -> Iterator[str]:
        """Yields the warning as tools/lint prints it."""
        yield f"warning {self.name} {self.pointer}".rstrip()
        yield ""
        yield f"Where: {self.where}"
        yield from labelled(self.said, self.cause, self.cure)


def lint(text: str, reports: Sequence[Report] = ()) -> List[Warned]:
    """Returns the warnings of a document, in the order of what they warn of. Some look at reports
    of its runs, which have their traces."""
    try:
        net = Document(text)
        found = [(it, check.__name__, said) for check in CHECKS for it, said in check(net, reports)]
        found.sort(key=lambda it: net.starts[it[0]])
        return [warned(net, *it) for it in found]
    except (LookupError, TypeError, AttributeError, RuntimeError, ValueError) as problem:
        raise NoNet(f"{type(problem).__name__}: {problem}") from problem


def warned(net: Document, pointer: str, name: str, said: str) -> Warned:
    says, cause, cure = rows(TABLE)[name]
    sentences = tuple(filter(None, (says, said)))
    return Warned(name, pointer, net.told(pointer), sentences, cause, cure)


# ---- what the warnings look at


def module_parts(net: Document, kind: str) -> Iterator[Tuple[str, Part, Part]]:
    """Yields the pointer, the module and the part of all `transitions` or `subs` of modules."""
    for number, module in enumerate(net.document["modules"]):
        for at, it in enumerate(module.get(kind, [])):
            yield f"/modules/{number}/{kind}/{at}", module, it


def arcs_at_transitions(module: Part) -> Iterator[Tuple[int, Part]]:
    """Yields the number and the arc of each arc of a module that stands at a transition, and not at
    a substitution transition."""
    transitions = {it["name"] for it in module["transitions"]}
    for at, arc in enumerate(module["arcs"]):
        if arc["transition"] in transitions:
            yield at, arc


def colours_of(module: Part) -> Dict[str, str]:
    return {it["name"]: it["colour"] for it in module["places"]}


class Ends:
    """Of each compound place the flat names of the transitions that take tokens from it, of those
    that put tokens there, and of those among them that may fill it while it is empty: an arc both
    ways puts back only what it takes. `joined` are the places that have an arc at all; it may be
    one that carries no token."""

    def __init__(self, net: Document):
        self.joined: Set[str] = set()
        self.takers: Dict[str, Set[str]] = collections.defaultdict(set)
        self.givers: Dict[str, Set[str]] = collections.defaultdict(set)
        self.fillers: Dict[str, Set[str]] = collections.defaultdict(set)
        by_way = {
            "transition": [self.takers],
            "place": [self.givers, self.fillers],
            "both": [self.takers, self.givers],
        }
        for path, module in net.flat.instances:
            for _, arc in arcs_at_transitions(module):
                place = net.flat.compound_name(f"{path}/{arc['place']}")
                self.joined.add(place)
                for ends in by_way[arc["to"]] if carries_tokens(arc) else []:
                    ends[place].add(f"{path}/{arc['transition']}")


def carries_tokens(arc: Part) -> bool:
    return not is_empty(arc.get("expr", "empty"))


def is_empty(text: str) -> bool:
    """Returns whether a text is the multiset without tokens."""
    return tokens_of(text) == ["empty"]


def initial_markings(net: Document, name: str) -> List[str]:
    """Returns the initial markings of a compound place: those that are written, and those of
    edits."""
    phases = net.document.get("phases", [])
    edits = [edit for phase in phases for edit in phase.get("edits", [])]
    given = [edit["text"] for edit in edits if edit.get("place") == name]
    return [*net.flat.markings(name).values(), *given]


# ---- the warnings


def key_twice(net: Document, reports: Sequence[Report]) -> Found:
    """A key stands twice in an object."""
    for pointer, key, _ in net.twice:
        yield pointer, f'The key "{key}" stands twice: the last one counts.'


def no_inscription(net: Document, reports: Sequence[Report]) -> Found:
    """An arc at a transition has no inscription."""
    for number, module in enumerate(net.document["modules"]):
        for at, arc in arcs_at_transitions(module):
            if "expr" not in arc:
                yield f"/modules/{number}/arcs/{at}", ""


def port_not_assigned(net: Document, reports: Sequence[Report]) -> Found:
    """A port of a substitution transition's module has no socket."""
    for pointer, _, sub in module_parts(net, "subs"):
        assigned = {it["port"] for it in sub["assign"]}
        for place in net.module(sub["module"])["places"]:
            if "port" in place and place["name"] not in assigned:
                said = f"The port {place['name']} of module {sub['module']} has no socket here."
                yield pointer, said


def place_without_arcs(net: Document, reports: Sequence[Report]) -> Found:
    """No transition takes tokens from a place, and none puts tokens there."""
    ends = Ends(net)
    for name, *others in net.flat.compounds:
        if name not in ends.joined:
            further = f", with {', '.join(others)}" if others else ""
            said = f"It is the place {name} of the flat net{further}."
            yield net.flat.pointer(name, "places"), said


def place_never_filled(net: Document, reports: Sequence[Report]) -> Found:
    """Transitions take tokens from a place that is empty at first, and none fills it."""
    ends = Ends(net)
    for name, *_ in net.flat.compounds:
        is_bare = all(map(is_empty, initial_markings(net, name)))
        if ends.takers[name] and not ends.fillers[name] and is_bare:
            takers = ", ".join(sorted(ends.takers[name]))
            said = f"It is the place {name} of the flat net, from which {takers} would take."
            yield net.flat.pointer(name, "places"), said


def never_occurred(net: Document, reports: Sequence[Report]) -> Found:
    """A transition has occurred in none of the reports, if there are any."""
    runs = [run for report in reports for run in report.runs]
    occurred = {it.transition for run in runs for it in run.occurrences}
    total = sum(report.total for report in reports)
    there = "is 1 occurrence" if total == 1 else f"are {total} occurrences"
    for name in net.flat.names("transitions") if reports else []:
        if name not in occurred:
            said = f"It is the transition {name} of the flat net, and there {there}."
            yield net.flat.pointer(name, "transitions"), said


def list_beside_list(net: Document, reports: Sequence[Report]) -> Found:
    """On an arc to or from a place of lists, ++ stands between a list and another one in
    brackets."""
    for number, module in enumerate(net.document["modules"]):
        colours = colours_of(module)
        for at, arc in arcs_at_transitions(module):
            text, colour = arc.get("expr", ""), colours[arc["place"]]
            if net.declared.kind_of(colour) == "list" and has_list_sum(tokens_of(text)):
                said = f"It is {text}, and {colour} is a colour set of lists."
                yield f"/modules/{number}/arcs/{at}/expr", said


def has_list_sum(tokens: List[str]) -> bool:
    """Returns whether ++ stands between a name and a list in brackets, neither of which has a
    number in front."""
    for at, token in enumerate(tokens):
        before, after = tokens[:at], [*tokens[at + 1 :], "", ""]
        if token == "++" and after[0] == "[":
            if before and is_name(before[-1]) and before[-2:-1] != ["`"]:
                return True
        elif token == "++" and is_name(after[0]) and after[1] != "`":
            opening = opening_of(before)
            if opening is not None and before[opening - 1 : opening] != ["`"]:
                return True
    return False


def opening_of(tokens: List[str]) -> Optional[int]:
    """Returns the number of the bracket of the list that some tokens end with, if they do."""
    depth = 0
    for at in range(len(tokens) - 1, -1, -1):
        depth += (tokens[at] == "]") - (tokens[at] == "[")
        if not depth:
            return at if tokens[at] == "[" else None
    return None


def delay_without_stamps(net: Document, reports: Sequence[Report]) -> Found:
    """A transition has a delay, and puts tokens on untimed places alone."""
    for pointer, module, transition in module_parts(net, "transitions"):
        if tokens_of(transition.get("delay", "")) in NO_DELAY:
            continue
        colours = colours_of(module)
        arcs = [module["arcs"][at] for at in net.arcs_at(module, transition["name"])]
        outputs = [colours[arc["place"]] for arc in arcs if arc["to"] != "transition"]
        if not any(map(net.declared.is_timed, outputs)):
            of = ", ".join(dict.fromkeys(outputs))
            said = f"It puts tokens of {of} there." if outputs else "It puts no tokens anywhere."
            yield f"{pointer}/delay", said


def random_before_others(net: Document, reports: Sequence[Report]) -> Found:
    """A variable that takes any value of its colour set is declared before others of its
    transition, which a token or an equation gives their values."""
    for pointer, _, _ in module_parts(net, "transitions"):
        found = [*how_found(net, pointer.split("/")[1:]).items()]
        chance = [at for at, it in enumerate(found) if it[1] == TRIED and is_drawn(net, it[0])]
        if chance:
            name = found[chance[0]][0]
            late = [it for it, how in found[chance[0] :] if how != TRIED]
            said = f"{name} takes any value of {net.declared.colour_of(name)}"
            if late:
                yield pointer, f"{said}, and is declared before {', '.join(late)}."


def is_drawn(net: Document, variable: str) -> bool:
    """Returns whether the colour set of a variable has more values than one."""
    return net.declared.number_of_values(net.declared.colour_of(variable)) != 1


def size_of_one_list(net: Document, reports: Sequence[Report]) -> Found:
    """A monitor counts the tokens of a place that always has one token, a list."""
    ends = Ends(net)
    for at, monitor in enumerate(net.document.get("monitors", [])):
        name, is_size = monitor.get("place"), monitor["kind"] in ("size", "stop_size")
        if is_size and name in net.flat.compound_of and holds_one_list(net, ends, name):
            said = f"The place {name} has one list, however many items are in it"
            yield f"/monitors/{at}", f"{said}: its size is always 1."


def holds_one_list(net: Document, ends: Ends, name: str) -> bool:
    """Returns whether a place has one token at first, a list, and each transition that takes it
    puts one back."""
    texts = {*net.flat.markings(name).values()}
    colour = net.flat.part(name, "places")["colour"]
    if net.declared.kind_of(colour) != "list" or len(texts) != 1:
        return False
    (number, value), *further = terms(texts.pop())
    is_one = not further and number in ([], ["1"]) and value != ["empty"]
    return is_one and ends.takers[name] == ends.givers[name]


CHECKS: Tuple[Callable[[Document, Sequence[Report]], Found], ...] = (
    key_twice,
    no_inscription,
    port_not_assigned,
    place_without_arcs,
    place_never_filled,
    never_occurred,
    list_beside_list,
    delay_without_stamps,
    random_before_others,
    size_of_one_list,
)
