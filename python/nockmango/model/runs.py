"""Runs replayed on their net: the marking after each occurrence.

    for state in states(Net(document), report): ..

Each occurrence of the report has to be enabled: its guard is true, and each input place has the
tokens that it needs, with stamps that are not above its time. The marking that is left at the end
of each run has to be the one that the report prints, and each run has to start as its phase says,
with the edits that were made till then. Otherwise `Wrong` is raised. What is not checked: that no
earlier time had an enabled element, that all that was enabled was counted, and colour sets.
"""
from __future__ import annotations

import collections
from typing import Any, Iterator, Mapping, NamedTuple, Optional, Union

from ..reports import Report, Run
from .nets import Marking, Net
from .texts import Wrong


class State(NamedTuple):
    """An occurrence, and the marking after it; at the beginning of a run there is no transition.

    `marking` has for each place the time stamps of its tokens, in order, by their values. `run` is
    the number of the run, and `net` the net as its edits have left it.
    """

    time: int
    transition: Optional[str]
    binding: Mapping[str, Any]
    marking: Marking
    run: int = 0
    net: Optional[Net] = None

    def counted(self, place: str) -> collections.Counter:
        """Returns how many tokens of each value are on a place."""
        stamps_of = self.marking[place]
        return collections.Counter({it: len(stamps) for it, stamps in stamps_of.items() if stamps})

    def number(self, place: str) -> int:
        """Returns how many tokens are on a place."""
        return sum(map(len, self.marking[place].values()))

    def one(self, place: str) -> Any:
        """Returns the value of the one token on a place."""
        (value,) = self.counted(place).elements()
        return value


def states(net: Net, of: Union[Report, Run]) -> Iterator[State]:
    """Yields the state at the beginning of each run and after each occurrence.

    `of` is a report, or one run of it that starts from the initial marking. The marking of a state
    changes with the next one: copy.deepcopy keeps it.
    """
    if isinstance(of, Report):
        yield from states_of_report(net, of)
    elif of.start == "here":
        raise ValueError(f"run {of.number} begins where the one before it ended: give the report")
    else:
        for phase in net.phases[: of.number + 1]:
            net = net.edited(phase.get("edits", []))
        yield from states_of_run(net, of, net.start())


def states_of_report(net: Net, report: Report) -> Iterator[State]:
    """Yields the states of all runs of a report."""
    runs = report.runs
    is_whole = len(runs) == len(net.phases) or runs[-1].end.cause == "fault"
    if len(runs) > len(net.phases) or not is_whole:
        raise Wrong(f"it has {len(runs)} runs, and {len(net.phases)} phases")
    clock, marking = 0, {}
    for run, phase in zip(runs, net.phases):
        net = net.edited(phase.get("edits", []))
        if phase["start"] == "initial":
            clock, marking = 0, net.start()
        if (run.start, run.clock_at_start) != (phase["start"], clock):
            raise Wrong(f"run {run.number} starts {run.start} at {run.clock_at_start}")
        yield from states_of_run(net, run, marking)
        clock = run.clock


def states_of_run(net: Net, run: Run, marking: Marking) -> Iterator[State]:
    """Yields the states of a run that starts from a marking, which changes."""
    if not run.is_traced:
        raise Wrong(f"of the {run.count} occurrences of run {run.number} there is no trace")
    yield State(run.clock_at_start, None, {}, marking, run.number, net)
    for it in run.occurrences:
        net.occur(marking, it.time, it.transition, it.binding)
        yield State(it.time, it.transition, it.binding, marking, run.number, net)
    if printed(run) != without_empty(marking):
        raise Wrong(f"the last marking of run {run.number} is {marking}")


def printed(run: Run) -> Marking:
    """Returns the marking that the report prints of a run."""
    marking: Marking = {}
    for place, tokens in run.places.items():
        stamps: dict = {}
        for it in tokens:
            stamps[it.value] = stamps.get(it.value, []) + [it.time or 0] * it.count
        marking[place] = {value: sorted(it) for value, it in stamps.items()}
    return marking


def without_empty(marking: Marking) -> Marking:
    """Returns a marking without the values of which there is no token."""
    return {
        place: {value: stamps for value, stamps in values.items() if stamps}
        for place, values in marking.items()
    }
