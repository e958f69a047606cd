"""Why a transition is enabled in a marking, and why it is not.

    found = why_not_enabled(state, "Desk/begin")
    found.elements      the bindings that this marking enables, each with the least time at which
    found.causes        what is in the way, where there is none
    found.lines(time)   the same in words

Bindings are searched for as docs/NETS.md says: by the binding terms of the input arcs, then by
equations of the guard, then by the values of small colour sets. A conjunct of the guard is tried as
soon as its variables have values. What makes a partial binding fail is noted, with the first such
binding. Input arcs and guards do not know the time, so what is found counts for the marking at any
clock: an element is enabled from the least time on.
"""
from __future__ import annotations

import collections
from dataclasses import dataclass
from typing import Any, Dict, Iterator, List, Mapping, NamedTuple, Optional, Set, Tuple, Union

from ..values import show_binding, show_value
from .colours import Colours
from .faults import Fault
from .forms import conjuncts, free_names, is_pattern, sides, terms
from .nets import Marking, Net
from .runs import State
from .texts import Meaning, Pattern, Reader
from .unfolding import instances

MOST_TRIES = 20_000  # of one search, which then ends as it is
MOST_SAID = 5  # elements, and causes, that are put in words

Binding = Dict[str, Any]


# ---- what is found


class Element(NamedTuple):
    """A binding that the marking enables, and the least time at which it does; till then the
    inscription of the arc from `place` waits for its tokens."""

    binding: Binding
    time: int
    place: Optional[str]
    inscription: str


class Cause(NamedTuple):
    """What makes bindings fail, how many of them, and the first one of them."""

    text: str
    count: int
    example: Binding


@dataclass(frozen=True)
class Found:
    """What a search has found: the elements by their times, and in order those of one time; where
    there is none, the causes, first those that come latest in the search. It is not whole where
    there were more bindings than are tried."""

    elements: Tuple[Element, ...]
    causes: Tuple[Cause, ...]
    is_whole: bool

    def lines(self, time: int) -> List[str]:
        """Returns what was found in words, for a clock."""
        shown = self.elements[:MOST_SAID]
        said = [element_text(it, time) for it in shown]
        said += [cause_text(it) for it in self.causes[:MOST_SAID]]
        hidden = len(self.elements) - len(shown)
        said += [f"and {hidden} further bindings"] if hidden else []
        return said + ([] if self.is_whole else ["there are more bindings than were tried"])


def element_text(it: Element, time: int) -> str:
    if it.time <= time:
        return f"enabled with {show_binding(it.binding)}"
    return f"enabled from {it.time} on with {show_binding(it.binding)}: {waits(it)} until then"


def waits(it: Element) -> str:
    """Returns what an element waits for."""
    return f"{it.inscription} waits for a token on {it.place}"


def cause_text(it: Cause) -> str:
    binding = f" with {show_binding(it.example)}" if it.example else ""
    others = {1: "", 2: ", and with 1 other"}.get(it.count, f", and with {it.count - 1} others")
    return it.text + binding + others


# ---- what a search does


class Term(NamedTuple):
    """A term of an input arc that finds variables: its pattern is matched with the tokens."""

    place: str
    text: str
    match: Pattern
    meaning: Meaning
    colours: Colours

    def bindings(self, env: Binding, marking: Marking) -> Iterator[Optional[Binding]]:
        """Yields for each value on the place the binding that agrees with it, or None."""
        for value, stamps in [*marking[self.place].items()]:
            if stamps:
                yield self.agreed(env, value)

    def agreed(self, env: Binding, value: Any) -> Optional[Binding]:
        bound: Binding = {}
        if not self.match(value, bound):
            return None
        if any(name in env and env[name] != it for name, it in bound.items()):
            return None
        if not all(self.colours.allows(name, it) for name, it in bound.items()):
            return None
        made = {**env, **bound}
        return made if self.meaning(made) == value else None

    def cause(self, marking: Marking) -> str:
        return no_token(self.place, self.text, marking)


class Equation(NamedTuple):
    """An equation of the guard that finds a variable."""

    name: str
    text: str
    meaning: Meaning
    colours: Colours

    def bindings(self, env: Binding, marking: Marking) -> Iterator[Optional[Binding]]:
        value = self.meaning(env)
        yield {**env, self.name: value} if self.colours.allows(self.name, value) else None

    def cause(self, marking: Marking) -> str:
        return f"the guard {self.text} gives {self.name} a value that its colour set does not have"


class Free(NamedTuple):
    """A variable that may have each value of its colour set."""

    name: str
    values: List[Any]

    def bindings(self, env: Binding, marking: Marking) -> Iterator[Optional[Binding]]:
        for value in self.values:
            yield {**env, self.name: value}

    def cause(self, marking: Marking) -> str:
        return f"{self.name} has no value"


class Conjunct(NamedTuple):
    """A part of the guard, whose variables have values."""

    text: str
    meaning: Meaning

    def bindings(self, env: Binding, marking: Marking) -> Iterator[Optional[Binding]]:
        yield env if self.meaning(env) else None

    def cause(self, marking: Marking) -> str:
        return f"the guard {self.text} is false"


Step = Union[Term, Equation, Free, Conjunct]


class Arc(NamedTuple):
    """An input arc: the compound place, the inscription and what it means."""

    place: str
    text: str
    meaning: Meaning


def no_token(place: str, inscription: str, marking: Marking) -> str:
    """Returns what is said where an arc finds no token."""
    if not any(marking[place].values()):
        return f"{place} is empty, so {inscription} finds no token"
    return f"{inscription} finds no token on {place}"


class Texts:
    """The texts of the transitions of a net, which are told by their names in the report."""

    def __init__(self, net: Net):
        self.net = net
        self.owners: Dict[str, Tuple[str, Mapping[str, str], List[Mapping[str, str]]]] = {}
        top = net.document["top"]
        for path, module in instances(net.document, top, top):
            arcs = collections.defaultdict(list)
            for arc in module["arcs"]:
                arcs[arc["transition"]].append(arc)
            for it in module["transitions"]:
                self.owners[f"{path}/{it['name']}"] = path, it, arcs[it["name"]]

    def input_arcs(self, name: str) -> Iterator[Arc]:
        path, _, arcs = self.owners[name]
        for arc in arcs:
            if arc["to"] != "place":
                text = arc.get("expr", "empty")
                yield Arc(self.net.compound[f"{path}/{arc['place']}"], text, self.net.bag(text))

    def others(self, name: str) -> List[str]:
        """Returns the texts besides the guard that have the variables of a transition: its delay,
        and the inscriptions of all its arcs."""
        _, own, arcs = self.owners[name]
        delay = own.get("delay", "0").strip().removeprefix("@+")
        return [delay, *(it.get("expr", "empty") for it in arcs)]

    def guard(self, name: str, run: int) -> str:
        """Returns the guard of a transition in a run, as the edits till then have left it."""
        found = self.owners[name][1].get("guard", "true")
        for phase in self.net.phases[: run + 1]:
            for edit in phase.get("edits", []):
                if edit["kind"] == "guard" and edit["transition"] == name:
                    found = edit["text"]
        return found


class Plan:
    """How the bindings of a transition are searched for: the steps, each of which goes on with
    partial bindings, and the arcs, whose tokens have to be there in the end."""

    def __init__(self, texts: Texts, colours: Colours, name: str, guard: str):
        self.known, self.colours = texts.net.known, colours
        self.arcs = [*texts.input_arcs(name)]
        self.bound: Set[str] = set()
        self.steps: List[Step] = []
        self.left = [it for it in conjuncts(guard) if it != "true"]
        self.add_conjuncts()
        for arc in self.arcs:
            self.add_terms(arc)
        for variable in self.missing([guard, *texts.others(name)]):
            self.add_variable(variable)
        self.names = [it for it in colours.variables if it in self.bound]

    def reader(self, text: str) -> Reader:
        return Reader(text, self.known)

    def variables_in(self, text: str) -> Set[str]:
        return free_names(text, self.known) & set(self.colours.variables)

    def add(self, step: Step, names: Set[str]) -> None:
        """Adds a step that finds these variables, and the conjuncts that can be tried then."""
        self.steps.append(step)
        self.bound |= names
        self.add_conjuncts()

    def add_conjuncts(self) -> None:
        ready = [it for it in self.left if self.variables_in(it) <= self.bound]
        self.left = [it for it in self.left if it not in ready]
        self.steps += [Conjunct(it, self.reader(it).whole()) for it in ready]

    def add_terms(self, arc: Arc) -> None:
        variables = set(self.colours.variables)
        for text in terms(arc.text):
            if is_pattern(text, variables, self.known):
                names = self.variables_in(text)
                if not names <= self.bound:
                    match, meaning = self.reader(text).pattern(), self.reader(text).whole()
                    self.add(Term(arc.place, arc.text, match, meaning, self.colours), names)

    def missing(self, texts: List[str]) -> Iterator[str]:
        """Yields the variables that no term finds, in the order in which they get their values."""
        wanted = set().union(*map(self.variables_in, texts))
        while wanted - self.bound:
            equation = self.equation()
            tried = [it for it in self.colours.variables if it in wanted - self.bound]
            small = [it for it in tried if self.colours.values_of(it)]
            if not equation and not small:
                return
            yield equation or small[0]

    def equation(self) -> Optional[str]:
        """Returns the variable that the first equation of the guard finds now, or None."""
        return next((name for name, *_ in self.equations()), None)

    def equations(self) -> Iterator[Tuple[str, str, str]]:
        """Yields the equations that can be solved: the variable, the other side, the conjunct."""
        for text in self.left:
            for name, other in both_ways(sides(text)):
                is_new = name in self.colours.variables and name not in self.bound
                if is_new and self.variables_in(other) <= self.bound:
                    yield name, other, text

    def add_variable(self, name: str) -> None:
        """Adds the step that finds a variable: its equation, or the values of its colour set."""
        for of, other, text in self.equations():
            if of == name:
                self.left.remove(text)
                meaning = self.reader(other).whole()
                self.add(Equation(name, text, meaning, self.colours), {name})
                return
        self.add(Free(name, self.colours.values_of(name)), {name})


def both_ways(pair: List[str]) -> List[Tuple[str, str]]:
    """Returns an equation from the left to the right and the other way round."""
    return [(pair[0], pair[1]), (pair[1], pair[0])] if pair else []


# ---- the search


class TooMany(Exception):
    """There are more bindings than are tried."""


class Search:
    """A search for the bindings of a transition in a marking."""

    def __init__(self, plan: Plan, marking: Marking, tries: int):
        self.plan, self.marking, self.tries = plan, marking, tries
        self.elements: List[Element] = []
        self.failed: Dict[Tuple[int, str], List] = {}

    def found(self) -> Found:
        try:
            self.go_on(0, {})
            is_whole = True
        except TooMany:
            is_whole = False
        key = self.plan.colours.key
        self.elements.sort(key=lambda it: (it.time, [key(value) for value in it.binding.values()]))
        latest_first = sorted(self.failed.items(), key=lambda it: -it[0][0])
        causes = [Cause(text, *noted) for (_, text), noted in latest_first]
        return Found(tuple(self.elements), tuple([] if self.elements else causes), is_whole)

    def go_on(self, at: int, env: Binding) -> None:
        """Goes on with a partial binding at a step."""
        if at == len(self.plan.steps):
            self.end(at, env)
            return
        step, agreed = self.plan.steps[at], False
        try:
            for made in step.bindings(env, self.marking):
                self.tries -= 1
                if self.tries < 0:
                    raise TooMany
                if made is not None:
                    agreed = True
                    self.go_on(at + 1, made)
        except Fault as fault:
            self.note(at, f"the guard {step.text} has no value: {fault}", env)
            return
        if not agreed:
            self.note(at, step.cause(self.marking), env)

    def end(self, at: int, env: Binding) -> None:
        """Looks whether the tokens are there that a binding needs, and from when on."""
        needed = collections.Counter()
        arc = None
        try:
            for arc in self.plan.arcs:
                for value, count, _ in arc.meaning(env):
                    if count < 0:
                        raise Fault("bad_coefficient")
                    needed[arc.place, value] += count
        except Fault as fault:
            self.note(at, f"{arc.text} on the arc from {arc.place} has no value: {fault}", env)
            return
        time, last = 0, None
        for (place, value), count in needed.items():
            stamps = self.marking[place].get(value, [])
            if len(stamps) < count:
                self.note(at, self.too_few(place, value, len(stamps), count), env)
                return
            if count and stamps[count - 1] > time:
                time, last = stamps[count - 1], place
        binding = {name: env[name] for name in self.plan.names}
        self.elements.append(Element(binding, time, last, self.inscriptions(last)))

    def inscriptions(self, place: Optional[str]) -> str:
        """Returns what the arcs from a place take."""
        return " and ".join(arc.text for arc in self.plan.arcs if arc.place == place)

    def too_few(self, place: str, value: Any, there: int, needed: int) -> str:
        if not there:
            return no_token(place, self.inscriptions(place), self.marking)
        tokens = "1 token" if there == 1 else f"{there} tokens"
        wanted = f"{self.inscriptions(place)} needs {needed}"
        return f"{place} has {tokens} {show_value(value)}, and {wanted}"

    def note(self, at: int, text: str, env: Binding) -> None:
        """Notes why a partial binding fails."""
        noted = self.failed.setdefault((at, text), [0, env])
        noted[0] += 1


class Enabling:
    """Tells of the transitions of one net why they are enabled in a state, or why not."""

    def __init__(self, net: Net, tries: int = MOST_TRIES):
        self.texts, self.tries = Texts(net), tries
        self.colours = Colours(net.document["declarations"])
        self.guards: Dict[Tuple[str, int], str] = {}
        self.plans: Dict[Tuple[str, str], Plan] = {}

    def plan(self, transition: str, run: int) -> Plan:
        """Returns how bindings of a transition are searched for in a run."""
        if (transition, run) not in self.guards:
            self.guards[transition, run] = self.texts.guard(transition, run)
        key = transition, self.guards[transition, run]
        if key not in self.plans:
            self.plans[key] = Plan(self.texts, self.colours, *key)
        return self.plans[key]

    def of(self, state: State, transition: str) -> Found:
        """Returns what a search finds for a transition in a state."""
        return Search(self.plan(transition, state.run), state.marking, self.tries).found()


def why_not_enabled(state: State, transition: str) -> Found:
    """Returns why a transition is enabled in a state, or why it is not."""
    return Enabling(state.net).of(state, transition)
