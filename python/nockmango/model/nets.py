"""The flat net of a document: its places, its transitions, and how an occurrence changes a marking.

A marking has for each place the time stamps of its tokens, in order, by their values; a token of a
place that is not timed has the stamp 0.
"""
from __future__ import annotations

import copy
from typing import Any, Callable, Dict, Iterable, List, Mapping, Tuple

from .declarations import Declared
from .faults import Fault
from .texts import Bag, Meaning, Reader, Wrong, bag_of
from .unfolding import compound, instances

Stamps = Dict[Any, List[int]]
Marking = Dict[str, Stamps]
ArcEnd = Tuple[str, Callable[[Mapping[str, Any]], Bag]]


def guard_of(text: str, known: Declared) -> Meaning:
    """Returns what a guard means: one truth value, or several in brackets."""
    parts = Reader(text.strip(), known).whole()

    def meaning(env):
        value = parts(env)
        return all(value) if isinstance(value, list) else value

    return meaning


class Transition:
    """A transition of an instance: what its guard, its delay and its arcs mean. Each arc is the
    name of its place and the meaning of its inscription."""

    def __init__(self, it: Mapping[str, str], known: Declared):
        self.guard = guard_of(it.get("guard", "true"), known)
        self.delay = Reader(it.get("delay", "0").strip().removeprefix("@+"), known).whole()
        self.inputs: List[ArcEnd] = []
        self.outputs: List[ArcEnd] = []


class Net:
    """The flat net of a document, which is a JSON value that the program accepts.

    known       what is declared
    compound    the name of the compound place of each place instance
    timed       of each place whether it is timed, in the order of the report
    initial     the initial marking of each place that has one, as a multiset
    transitions each transition by its name
    phases      the phases, one where the document has none
    """

    def __init__(self, document: Mapping[str, Any]):
        self.document = document
        self.known = Declared(document["declarations"])
        found = [*instances(document, document["top"], document["top"])]
        self.compound = {
            f"{path}/{place}": "/".join(group[0])
            for group in compound(document, found)
            for path, place in group
        }
        self.phases = document.get("phases") or [{"start": "initial"}]
        self.timed: Dict[str, bool] = {}
        self.initial: Dict[str, Bag] = {}
        self.transitions: Dict[str, Transition] = {}
        for path, module in found:
            for place in module["places"]:
                name = self.compound[f"{path}/{place['name']}"]
                self.timed[name] = place["colour"] in self.known.timed
                if "initial" in place:
                    self.initial[name] = self.bag(place["initial"])({})
            for it in module["transitions"]:
                self.transitions[f"{path}/{it['name']}"] = Transition(it, self.known)
            for arc in module["arcs"]:
                self.add_arc(path, arc)

    def bag(self, text: str) -> Callable[[Mapping[str, Any]], Bag]:
        """Returns what a text means, as a multiset."""
        meaning = Reader(text, self.known).whole()
        return lambda env: bag_of(meaning(env))

    def add_arc(self, path: str, arc: Mapping[str, str]) -> None:
        """Adds an arc of an instance to its transition; one of a substitution transition says
        nothing."""
        transition = self.transitions.get(f"{path}/{arc['transition']}")
        if transition:
            end = (self.compound[f"{path}/{arc['place']}"], self.bag(arc.get("expr", "empty")))
            transition.inputs += [end] if arc["to"] != "place" else []
            transition.outputs += [end] if arc["to"] != "transition" else []

    def edited(self, edits: Iterable[Mapping[str, str]]) -> Net:
        """Returns the net with the edits of a phase."""
        net = copy.copy(self)
        net.initial, net.transitions = {**self.initial}, {**self.transitions}
        for edit in edits:
            if edit["kind"] == "guard":
                transition = copy.copy(net.transitions[edit["transition"]])
                transition.guard = guard_of(edit["text"], self.known)
                net.transitions[edit["transition"]] = transition
            else:
                net.initial[edit["place"]] = self.bag(edit["text"])({})
        return net

    # -- markings

    def start(self) -> Marking:
        """Returns the initial marking."""
        marking: Marking = {place: {} for place in self.timed}
        for place, bag in self.initial.items():
            self.add(marking, place, bag, 0)
        return marking

    def add(self, marking: Marking, place: str, bag: Bag, time: int) -> None:
        """Adds tokens to a place, each later by its delay than a time."""
        for value, count, delay in bag:
            stamp = time + delay if self.timed[place] else 0
            marking[place][value] = sorted(marking[place].get(value, []) + [stamp] * count)

    def occur(self, marking: Marking, time: int, name: str, binding: Mapping[str, Any]) -> None:
        """Changes the marking as an occurrence does. `Wrong` says why it is not enabled."""
        if name not in self.transitions:
            raise Wrong(f"the net has no transition {name}")
        try:
            self._occur(marking, time, name, binding)
        except Fault as fault:
            raise Wrong(f"{name} at {time} with {binding} has the fault {fault}") from fault
        except (LookupError, TypeError, AttributeError) as problem:
            raise Wrong(f"{binding} is no binding of {name} in this net: {problem}") from problem

    def _occur(self, marking: Marking, time: int, name: str, binding: Mapping[str, Any]) -> None:
        transition, env = self.transitions[name], {**binding, "time": time}
        if not transition.guard(env):
            raise Wrong(f"the guard of {name} is false with {binding}")
        for place, arc in transition.inputs:
            for value, count, _ in arc(env):
                stamps = marking[place].get(value, [])
                ready = sum(stamp <= time for stamp in stamps)
                if ready < count:
                    raise Wrong(
                        f"{name} at {time} with {binding}: {place} has {ready} tokens {value} "
                        f"that it may take, and not {count}"
                    )
                marking[place][value] = stamps[: ready - count] + stamps[ready:]
        for place, arc in transition.outputs:
            self.add(marking, place, arc(env), time + transition.delay(env))
