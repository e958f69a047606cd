"""What monitors measure and probes tell, as plainly as can be: of the occurrences of a run, listed.
Nothing is added up while a run is made.

    for monitors in measured(Net(document), report): ..
"""
from __future__ import annotations

import itertools
from typing import Any, Dict, Iterable, Iterator, List, Mapping, NamedTuple, Optional, Sequence

from ..reports import Count, Measured, Report, Size, StopCount, StopSize, Value
from .faults import Fault
from .nets import Net
from .runs import State, states
from .texts import Meaning, Reader


class Step(NamedTuple):
    """An occurrence: its transition, its binding, its time, and how many tokens each place has
    after it."""

    transition: Any
    binding: Mapping[str, Any]
    time: int
    sizes: Mapping[str, int]


class Text(NamedTuple):
    """What a monitor works out: the text, and what it means, which may be a `Fault`."""

    text: str
    meaning: Meaning


class Monitor(NamedTuple):
    """A monitor: its name and its kind, its place or its transition, and what else its kind has."""

    name: str
    kind: str
    at: Any
    n: Optional[int] = None
    op: Optional[str] = None
    text: Optional[Text] = None

    def looks_at_a_place(self) -> bool:
        return self.kind in ("size", "stop_size")

    def of(self, steps: Iterable[Step]) -> List[Step]:
        """Returns the occurrences of its transition."""
        return [step for step in steps if step.transition == self.at]

    def stops(self, steps: Sequence[Step]) -> bool:
        """Tells whether it stops the run after the last of some occurrences."""
        if self.kind == "stop_count":
            return steps[-1].transition == self.at and len(self.of(steps)) == self.n
        if self.kind != "stop_size":
            return False
        size = steps[-1].sizes[self.at]
        return size >= self.n if self.op == "at_least" else size <= self.n

    def values(self, steps: Iterable[Step]) -> List[Optional[int]]:
        """Returns the value of its text at each occurrence of its transition, or None where it has
        a fault."""
        found: List[Optional[int]] = []
        for step in self.of(steps):
            try:
                found.append(self.text.meaning(step.binding))
            except Fault:
                found.append(None)
        return found

    def measured(
        self, at_start: Mapping[str, int], steps: Sequence[Step], first: int, clock: int
    ) -> Measured:
        """Returns what it measures of a run: of how many tokens each place has at the start, the
        occurrences, the first and the last clock."""
        if self.kind in ("count", "stop_count"):
            return (Count if self.kind == "count" else StopCount)(len(self.of(steps)))
        if self.kind == "value":
            values = self.values(steps)
            found = [it for it in values if it is not None]
            least, greatest = min(found, default=None), max(found, default=None)
            return Value(len(found), sum(found), least, greatest, len(values) - len(found))
        sizes = [at_start[self.at], *(step.sizes[self.at] for step in steps)]
        if self.kind == "stop_size":
            return StopSize(sizes[-1])
        times = [first, *(step.time for step in steps), clock]
        stretches = [(later - time) * size for time, later, size in zip(times, times[1:], sizes)]
        return Size(min(sizes), max(sizes), sizes[-1], sum(stretches))

    def line(self, *given: Any) -> str:
        """Returns the line that a report has for it."""
        return f"monitor {self.measured(*given)} {self.name}"


def stretches_of(values: Iterable[Any]) -> List[int]:
    """Returns how long each stretch of equal values is."""
    return [len([*stretch]) for _, stretch in itertools.groupby(values)]


def probe_lines(steps: Sequence[Step]) -> List[str]:
    """Returns the lines of the probes after the occurrences of all runs."""
    moments = stretches_of(step.time for step in steps)
    streaks = stretches_of(step.transition for step in steps)
    return [f"probe 0 moments {len(moments)}", f"probe 1 streak {max(streaks, default=0)}"]


def stop_after(monitors: Iterable[Monitor], steps: Sequence[Step]) -> Optional[Monitor]:
    """Returns the first monitor that stops the run after the last of some occurrences, or None."""
    return next((it for it in monitors if steps and it.stops(steps)), None)


# ---- the monitors of a document, and what they measure of the runs of a report


def monitors_of(net: Net) -> List[Monitor]:
    """Returns the monitors of a net."""
    return [monitor_of(net, it) for it in net.document.get("monitors", [])]


def monitor_of(net: Net, it: Mapping[str, Any]) -> Monitor:
    text = Text(it["expr"], Reader(it["expr"], net.known).whole()) if "expr" in it else None
    at = it["place"] if "place" in it else it["transition"]
    return Monitor(it["name"], it["kind"], at, it.get("n"), it.get("op"), text)


def measured(net: Net, report: Report) -> Iterator[Dict[str, Measured]]:
    """Yields of each run of a report what the monitors of the net measure, by their names. The
    report has to have its trace."""
    monitors = monitors_of(net)
    for number, found in itertools.groupby(states(net, report), key=lambda state: state.run):
        start, *steps = map(step_of, found)
        clocks = report.runs[number].clock_at_start, report.runs[number].clock
        yield {it.name: it.measured(start.sizes, steps, *clocks) for it in monitors}


def step_of(state: State) -> Step:
    """Returns what monitors see of a state."""
    sizes = {place: state.number(place) for place in state.marking}
    return Step(state.transition, state.binding, state.time, sizes)
