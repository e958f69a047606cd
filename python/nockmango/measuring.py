"""Figures of runs: means over time, means of values, and confidence intervals over several runs.

A monitor of a report has exact numbers. Here they become the figures that engineers ask for, and
the numbers of several runs, one for each seed, become a mean with its confidence interval.
"""
from __future__ import annotations

import dataclasses
import math
import statistics
from typing import Any, Iterable, Iterator, Mapping, Optional, Sequence, Union

from . import model
from .reports import Measured, Report, Run, Size, Value

Number = Union[int, float]


class NotMeasured(Exception):
    """What is asked for is not in the report."""


# ---- one run


def figure(run: Run, name: str) -> Optional[Number]:
    """Returns the one number that a monitor gives for a run: of a count and a stop its number, of a
    size the mean over the time, of values their mean. There is none where no time passed, and where
    there was no value."""
    it = monitor(run, name)
    if isinstance(it, Size):
        return it.area / run.duration if run.duration else None
    if isinstance(it, Value):
        return it.sum / it.count if it.count else None
    return it.n


def monitor(run: Run, name: str) -> Measured:
    """Returns what the monitor of this name has measured."""
    if name not in run.monitors:
        there = ", ".join(run.monitors) or "none"
        raise NotMeasured(f"run {run.number} has no monitor {name}; it has {there}")
    return run.monitors[name]


# ---- what happens over the time


@dataclasses.dataclass(frozen=True)
class Course:
    """How many tokens a place has in the course of a run: at the start, after each occurrence that
    changes the number, and at the last clock. Of several numbers at one time the last one stands
    for a while; the others are there for none."""

    run: int
    times: tuple[int, ...]
    sizes: tuple[int, ...]

    def mean(self) -> Optional[float]:
        """Returns the mean size over the time."""
        time = self.times[-1] - self.times[0]
        stretches = zip(self.times, self.times[1:], self.sizes)
        area = sum((later - earlier) * size for earlier, later, size in stretches)
        return area / time if time else None


def courses(net: model.Net, report: Report, place: str) -> Iterator[Course]:
    """Yields the course of a place in each run of a report. The report has its occurrences, of
    which the marking after each of them is worked out."""
    require_occurrences(report)
    found: list[tuple[list[int], list[int]]] = []
    for state in model.states(net, report):
        if state.transition is None:
            found.append(([], []))
        times, sizes = found[-1]
        size = state.number(place)
        if not sizes or sizes[-1] != size:
            times.append(state.time)
            sizes.append(size)
    for run, (times, sizes) in zip(report.runs, found):
        yield Course(run.number, (*times, run.clock), (*sizes, sizes[-1]))


def values_of(runs: Iterable[Run], transition: str, variable: str) -> Iterator[int]:
    """Yields the value of an integer variable at each occurrence of a transition."""
    for run in runs:
        for it in run.of(transition):
            yield integer_of(it.binding, transition, variable)


def integer_of(binding: Mapping[str, Any], transition: str, variable: str) -> int:
    """Returns the integer that a binding gives a variable."""
    if variable not in binding:
        there = ", ".join(binding) or "none"
        raise NotMeasured(f"{transition} has no variable {variable}; it has {there}")
    value = binding[variable]
    if isinstance(value, bool) or not isinstance(value, int):
        raise NotMeasured(f"{variable} of {transition} has a value that is no integer")
    return value


def require_occurrences(report: Report) -> None:
    """Raises NotMeasured for a report that was made without its occurrences."""
    for run in report.runs:
        if not run.is_traced:
            raise NotMeasured(
                f"run {run.number} has {run.count} occurrences, and the report shows "
                f"{len(run.occurrences)} of them: make it with --trace on"
            )


# ---- several runs


@dataclasses.dataclass(frozen=True)
class Interval:
    """The mean of numbers that were drawn independently, and half the width of its confidence
    interval: the interval reaches from `least` to `greatest`. There is no width for one number."""

    count: int
    mean: float
    half_width: Optional[float]

    @property
    def least(self) -> Optional[float]:
        return None if self.half_width is None else self.mean - self.half_width

    @property
    def greatest(self) -> Optional[float]:
        return None if self.half_width is None else self.mean + self.half_width


def interval(numbers: Sequence[Number], level: float = 0.95) -> Interval:
    """Returns the mean of one number for each run, with its confidence interval of this level, by
    Student's distribution."""
    count, mean = len(numbers), statistics.fmean(numbers)
    if count < 2:
        return Interval(count, mean, None)
    error = statistics.stdev(numbers) / math.sqrt(count)
    return Interval(count, mean, student(level, count - 1) * error)


def student(level: float, degrees: int) -> float:
    """Returns t such that a variable of Student's distribution with so many degrees of freedom lies
    between -t and t with the probability `level`."""
    if not 0 < level < 1:
        raise ValueError(f"a level lies between 0 and 1, and {level} does not")
    least, greatest = 0.0, 1.0
    while chance_within(greatest, degrees) < level:
        least, greatest = greatest, 2 * greatest
    for _ in range(60):
        middle = (least + greatest) / 2
        if chance_within(middle, degrees) < level:
            least = middle
        else:
            greatest = middle
    return greatest


def chance_within(t: float, degrees: int) -> float:
    """Returns with which probability a variable of Student's distribution lies between -t and t.

    For whole degrees of freedom this is a finite sum: formulas 26.7.3 and 26.7.4 of Abramowitz and
    Stegun, Handbook of Mathematical Functions.
    """
    angle = math.atan(t / math.sqrt(degrees))
    is_odd = degrees % 2 == 1
    term, total = math.cos(angle) if is_odd else 1.0, 0.0
    for k in range(3 if is_odd else 2, degrees + 1, 2):
        total += term
        term *= math.cos(angle) ** 2 * (k - 1) / k
    if is_odd:
        return 2 / math.pi * (angle + math.sin(angle) * total)
    return math.sin(angle) * total
