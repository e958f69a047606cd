"""What the page of tools/watch knows of a report, in a form that is small and soon read.

A state is the marking at the start of a run or after an occurrence. Of a marking there is only what
differs from the one before, so the page goes from state to state by adding and taking tokens. What
a search for bindings has found counts for a transition until the tokens of its input places change,
and equal findings are kept once; the page compares the time with the least time of an element. So
the reasons are worked out here, by `nockmango.model.enabling`, and the page has no second model of
the language. A search tries at most `TRIES` bindings, and a page shows `SHOWN` of those it finds.
"""
from __future__ import annotations

import collections
from typing import Any, Dict, Hashable, Iterable, Iterator, List, Optional, Sequence, Tuple, Union

from ..measuring import figure
from ..model import Net, State, states
from ..model.enabling import Element, Enabling, Found, cause_text, waits
from ..reports import Report, Run, Size, Value
from ..values import show_value

TRIES = 2_000
SHOWN = 8  # elements and causes of a finding
MOST_KEPT = 64  # values on a place, where what was found for its tokens is kept
LONGEST = 300  # characters of a value
SAFE = 2**53  # from here on a script reads other numbers than are written
CHARTED = 3  # places of the chart, where no monitor says which

Change = Tuple[str, Any, int, int]  # place, value, stamp, number of tokens


class Numbering(Dict[Hashable, int]):
    """Numbers things in the order in which they are first asked for."""

    def __missing__(self, thing: Hashable) -> int:
        self[thing] = len(self)
        return self[thing]


def exact(number: int) -> Union[int, str]:
    """Returns a number, or its digits where a script would round it."""
    return number if abs(number) < SAFE else str(number)


def short(value: Any) -> str:
    """Returns a value as a report has it, without the end of a long one."""
    text = show_value(value)
    return text if len(text) <= LONGEST else f"{text[:LONGEST]}… ({len(text)} characters)"


class Recording:
    """The states of a report, one after another."""

    def __init__(self, net: Net):
        self.net, self.enabling = net, Enabling(net, TRIES)
        self.times: List[int] = []
        self.occurred: List[Optional[str]] = []
        self.bound: List[int] = []
        self.changes: List[List[Change]] = []
        self.why: Dict[str, List[int]] = {name: [] for name in net.transitions}
        self.variables, self.values, self.bindings = Numbering(), Numbering(), Numbering()
        self.texts, self.reasons = Numbering(), Numbering()
        self.found: Dict[Hashable, int] = {}
        self.tokens: Dict[Tuple[str, Any], Tuple[int, ...]] = {}
        self.takers: Dict[str, Dict[str, None]] = collections.defaultdict(dict)
        for name, transition in net.transitions.items():
            for place, _ in transition.inputs:
                self.takers[place][name] = None

    def add(self, state: State) -> None:
        """Adds a state."""
        starts = state.transition is None
        changes = [*self.differences(state, self.every_token(state) if starts else moved(state))]
        self.times.append(state.time)
        self.occurred.append(state.transition)
        self.bound.append(-1 if starts else self.binding(state.binding))
        self.changes.append(changes)
        asked = [*self.net.transitions] if starts else self.taking(it[0] for it in changes)
        for transition in asked:
            self.ask(state, transition)

    def taking(self, places: Iterable[str]) -> List[str]:
        """Returns the transitions that take tokens from some places."""
        return [*dict.fromkeys(name for place in places for name in self.takers[place])]

    # -- tokens

    def every_token(self, state: State) -> Iterator[Tuple[str, Any]]:
        """Yields the place and the value of all tokens that are there now or were there before."""
        yield from self.tokens
        for place, values in state.marking.items():
            for value in values:
                yield place, value

    def differences(
        self, state: State, touched: Iterable[Tuple[str, Any]]
    ) -> Iterator[Change]:
        """Yields what differs from the state before, of places and values that may differ."""
        for place, value in dict.fromkeys(touched):
            stamps = tuple(state.marking[place].get(value, ()))
            counts = collections.Counter(stamps)
            counts.subtract(self.tokens.get((place, value), ()))
            self.tokens[place, value] = stamps
            if not stamps:
                del self.tokens[place, value]
            yield from ((place, value, stamp, it) for stamp, it in sorted(counts.items()) if it)

    def binding(self, binding: Dict[str, Any]) -> int:
        """Returns the number of a binding."""
        values = [self.values[short(value)] for value in binding.values()]
        return self.bindings[(self.variables[tuple(binding)], *values)]

    # -- what is enabled

    def ask(self, state: State, transition: str) -> None:
        """Asks why a transition is enabled, or why not, from this state on."""
        key = self.local_marking(state, transition)
        if key is None or key not in self.found:
            reason = self.reasons[self.reason(self.enabling.of(state, transition))]
            if key is not None:
                self.found[key] = reason
        else:
            reason = self.found[key]
        steps = self.why[transition]
        if not steps or steps[-1] != reason:
            steps += [len(self.times) - 1, reason]

    def local_marking(self, state: State, transition: str) -> Optional[Hashable]:
        """Returns all that a search depends on, if that is not much."""
        plan = self.enabling.plan(transition, state.run)
        tokens = []
        for place in dict.fromkeys(arc.place for arc in plan.arcs):
            there = {it: tuple(stamps) for it, stamps in state.marking[place].items() if stamps}
            if len(there) > MOST_KEPT:
                return None
            tokens.append(frozenset(there.items()))
        return id(plan), tuple(tokens)

    def reason(self, found: Found) -> Hashable:
        """Returns what is told of a search: how many elements there are, whether all were tried,
        the first elements, and the causes."""
        elements = tuple(map(self.element, found.elements[:SHOWN]))
        causes = tuple(self.texts[cause_text(it)] for it in found.causes[:SHOWN])
        return len(found.elements), found.is_whole, elements, causes

    def element(self, it: Element) -> Hashable:
        last = self.texts[waits(it)] if it.place is not None else -1
        return exact(it.time), self.binding(it.binding), last


def moved(state: State) -> Iterator[Tuple[str, Any]]:
    """Yields the place and the value of all tokens that an occurrence has taken or given."""
    transition, env = state.net.transitions[state.transition], {**state.binding, "time": state.time}
    for place, arc in [*transition.inputs, *transition.outputs]:
        for value, _, _ in arc(env):
            yield place, value


# ---- as data


def recorded(net: Net, report: Report) -> Dict[str, Any]:
    """Returns what the page knows of the states of a report, as a JSON value."""
    recording = Recording(net)
    for state in states(net, report):
        recording.add(state)
    transitions = {name: at for at, name in enumerate(net.transitions)}
    places = {name: at for at, name in enumerate(net.timed)}
    values = values_of(recording)
    return {
        "places": [
            {"name": name, "timed": timed, "values": [*map(short, values[name])]}
            for name, timed in net.timed.items()
        ],
        "transitions": [*transitions],
        "times": [*map(exact, recording.times)],
        "occurred": [-1 if it is None else transitions[it] for it in recording.occurred],
        "bound": recording.bound,
        "changes": numbered(recording.changes, places, values),
        "variables": [*recording.variables],
        "values": [*recording.values],
        "bindings": [*recording.bindings],
        "texts": [*recording.texts],
        "reasons": [*recording.reasons],
        "why": [*recording.why.values()],
        "runs": [*runs_of(report)],
        "charted": [places[name] for name in charted(net, recording)],
        "about": about(report),
    }


def values_of(recording: Recording) -> Dict[str, List[Any]]:
    """Returns of each place all values that were there, in the order of a report."""
    found: Dict[str, Dict[Any, None]] = collections.defaultdict(dict)
    for changes in recording.changes:
        for place, value, _, _ in changes:
            found[place][value] = None
    key = recording.enabling.colours.key
    return {place: sorted(found[place], key=key) for place in recording.net.timed}


def numbered(
    all_changes: Sequence[List[Change]], places: Dict[str, int], values: Dict[str, List[Any]]
) -> List[List[Union[int, str]]]:
    """Returns changes as rows of numbers, four for each."""
    numbers = {
        (place, value): at for place, them in values.items() for at, value in enumerate(them)
    }
    return [
        [
            it
            for place, value, stamp, count in changes
            for it in (places[place], numbers[place, value], exact(stamp), count)
        ]
        for changes in all_changes
    ]


def runs_of(report: Report) -> Iterator[Dict[str, Any]]:
    """Yields of each run its states, its end, and what its monitors have measured."""
    first = 0
    for run in report.runs:
        last = first + run.count
        yield {
            "number": run.number,
            "first": first,
            "last": last,
            "clock": exact(run.clock),
            "end": str(run.end),
            "monitors": [[name, monitor_text(run, name)] for name in run.monitors],
        }
        first = last + 1


def monitor_text(run: Run, name: str) -> str:
    """Returns what a monitor has measured, in words."""
    it, mean = run.monitors[name], figure(run, name)
    if isinstance(it, Size):
        over_time = "" if mean is None else f", {mean:.6g} in the mean over the time"
        return f"{it.least} to {it.greatest} tokens{over_time}; {it.last} at the end"
    if isinstance(it, Value):
        if mean is None:
            return f"no value; {it.faulted} faults"
        faults = f"; {it.faulted} faults" if it.faulted else ""
        return f"{it.count} values of {it.least} to {it.greatest}, {mean:.6g} in the mean{faults}"
    return f"{it.n} tokens" if it.kind == "stop_size" else f"{it.n} occurrences"


def charted(net: Net, recording: Recording) -> List[str]:
    """Returns the places of the chart at first: those whose size a monitor measures, or the first
    ones whose size changes."""
    monitors = net.document.get("monitors", [])
    measured = [it["place"] for it in monitors if it["kind"] == "size"]
    changed = collections.Counter()
    for changes, transition in zip(recording.changes, recording.occurred):
        sizes = collections.Counter()
        for place, _, _, count in changes if transition else ():
            sizes[place] += count
        changed.update(place for place, it in sizes.items() if it)
    names = measured or [name for name in net.timed if changed[name]]
    return [*dict.fromkeys(names)][: 2 * CHARTED if measured else CHARTED]


def about(report: Report) -> str:
    """Returns a sentence on the whole report."""
    if len(report.runs) > 1:
        return f"{report.total} occurrences in {len(report.runs)} runs"
    return f"{report.total} occurrences; the run ended: {report.last.end}"
