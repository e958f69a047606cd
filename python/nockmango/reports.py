"""Reports of the program, read whole: docs/REPORT.md says what each line is.

    report = read_report(text)
    report.last.places["Bridge/Across"]         (Token(count=3, value=7, time=None),)
    report.last.monitors["queue"].area          12

A report has one run, or one for each phase of the document. A line that is none of a report's is
told by its number.
"""
from __future__ import annotations

import re
import sys
from dataclasses import dataclass, field, fields
from typing import Any, ClassVar, Dict, List, Match, Optional, Pattern, Tuple, Union

from .markings import Marking, read_marking
from .values import read_binding, show_binding

NAME = "[A-Za-z](?:[A-Za-z0-9_ -]*[A-Za-z0-9_-])?"
FLAT = f"{NAME}(?:/{NAME})*"
NUMBER, SIGNED = "([0-9]+)", "(~?[0-9]+)"
MAYBE, MAYBE_SIGNED = "(none|[0-9]+)", "(none|~?[0-9]+)"
BINDING = r"(\{.*\})"

REPORT = re.compile("report 1")
RUN = re.compile(f"run {NUMBER} (initial|here) {NUMBER} ready {NUMBER} next {MAYBE}")
OCCURRENCE = re.compile(f"occ {NUMBER} @{NUMBER} ({FLAT}) {BINDING}")
SCHEDULE = re.compile("schedule((?: [cdxm][0-9]+)*)")
END = re.compile(
    "end (?:(?P<plain>dead|steps)|until (?P<time>[0-9]+)|"
    f"stop (?P<monitor>{NAME})|"
    f"fault (?P<number>[0-9]+) (?P<name>[a-z_]+) (?P<transition>{FLAT}) (?P<binding>{BINDING}))"
)
OCCURRENCES = re.compile(f"occurrences {NUMBER}")
CLOCK = re.compile(f"clock {NUMBER}")
PLACE = re.compile(f"place ({FLAT}) (empty|[0-9]+`.*)")
READY = re.compile(f"ready {NUMBER}")
NEXT = re.compile(f"next {MAYBE}")
PROBE = re.compile(f"probe {NUMBER} ([a-z_]+) {NUMBER}")
TOTAL = re.compile(f"total {NUMBER}")
EVENTS = {"c": "claim", "d": "completion", "x": "cut", "m": "move"}


class NotAReport(ValueError):
    """A line is none of a report's. `number` is that of the line, from 1 on."""

    def __init__(self, number: int, line: Optional[str], wanted: str):
        there = "the text ends" if line is None else f"there is {line[:200]!r}"
        super().__init__(f"line {number}: {wanted}, and {there}")
        self.number, self.line = number, line


# ---- what a report says


@dataclass(frozen=True)
class Occurrence:
    """An occurrence: its number in the run, its time, and the binding element that occurred.

    Occurrences with equal bindings share one dict: copy it before you change it.
    """

    number: int
    time: int
    transition: str
    binding: Dict[str, Any]


@dataclass(frozen=True)
class Event:
    """An event of a run: the `claim`, the `completion` or the `cut` of a number, or the `move` of
    the clock to a time, which is its number."""

    kind: str
    number: int


@dataclass(frozen=True)
class Fault:
    """Why the output inscriptions of a binding element have no value, and which element it is."""

    number: int
    name: str
    transition: str
    binding: Dict[str, Any]

    def __str__(self) -> str:
        return f"{self.number} {self.name} {self.transition} {show_binding(self.binding)}"


@dataclass(frozen=True)
class End:
    """Why a run ended.

    The cause is `dead`, `steps`, `until`, whose detail is the time of the next occurrence, `stop`,
    whose detail is the name of the monitor, or `fault`, whose detail is a `Fault`. Its `str` is
    what the report has: 'until 9'.
    """

    cause: str
    detail: Union[None, int, str, Fault] = None

    def __str__(self) -> str:
        return self.cause if self.detail is None else f"{self.cause} {self.detail}"


@dataclass(frozen=True)
class Measured:
    """What a monitor has measured of a run. Its `str` is what the report has: 'size 0 2 0 12'."""

    kind: ClassVar[str]

    def __str__(self) -> str:
        return " ".join([self.kind, *(show_number(getattr(self, it.name)) for it in fields(self))])


@dataclass(frozen=True)
class Count(Measured):
    """How often a transition has occurred."""

    kind: ClassVar[str] = "count"
    n: int


@dataclass(frozen=True)
class Size(Measured):
    """The tokens on a place: the least, the greatest and the last number of those at the start and
    after each occurrence, and the sum of each number times how long it stood."""

    kind: ClassVar[str] = "size"
    least: int
    greatest: int
    last: int
    area: int


@dataclass(frozen=True)
class Value(Measured):
    """An integer that is worked out at each occurrence of a transition: how many values there are,
    their sum, the least and the greatest, which are None where there is no value; and at how many
    occurrences it has none, by a fault."""

    kind: ClassVar[str] = "value"
    count: int
    sum: int
    least: Optional[int]
    greatest: Optional[int]
    faulted: int


@dataclass(frozen=True)
class StopCount(Measured):
    """How often the transition has occurred whose occurrences stop the run."""

    kind: ClassVar[str] = "stop_count"
    n: int


@dataclass(frozen=True)
class StopSize(Measured):
    """The last number of tokens on the place whose tokens stop the run."""

    kind: ClassVar[str] = "stop_size"
    n: int


MONITORS = {
    form: re.compile(f"monitor {form.kind} {numbers} ({NAME})")
    for form, numbers in (
        (Count, NUMBER),
        (Size, " ".join([NUMBER] * 4)),
        (Value, f"{NUMBER} {SIGNED} {MAYBE_SIGNED} {MAYBE_SIGNED} {NUMBER}"),
        (StopCount, NUMBER),
        (StopSize, NUMBER),
    )
}


@dataclass(frozen=True)
class Run:
    """A run. Places, transitions and monitors have the names that the report prints.

    Without a trace it has neither occurrences nor events, and the run of a generated net has no
    places.
    """

    number: int
    start: str
    clock_at_start: int
    ready_at_start: int
    next_at_start: Optional[int]
    occurrences: Tuple[Occurrence, ...]
    schedule: Tuple[Event, ...]
    end: End
    count: int
    clock: int
    places: Dict[str, Marking]
    ready: int
    next: Optional[int]
    monitors: Dict[str, Measured]

    @property
    def duration(self) -> int:
        """The time of the run: its last clock less the one at its start."""
        return self.clock - self.clock_at_start

    @property
    def is_traced(self) -> bool:
        """Whether all its occurrences are listed."""
        return len(self.occurrences) == self.count

    def of(self, transition: str) -> Tuple[Occurrence, ...]:
        """Returns the occurrences of a transition."""
        return tuple(it for it in self.occurrences if it.transition == transition)


@dataclass(frozen=True)
class Report:
    """A report: its runs, what the probes say of all occurrences, by the name of the probe, how
    many occurrences there are in all runs, and the text itself."""

    runs: Tuple[Run, ...]
    probes: Dict[str, int]
    total: int
    text: str = field(repr=False)

    @property
    def last(self) -> Run:
        """The last run, which is the only one of a document without phases."""
        return self.runs[-1]


# ---- how it is read


class Lines:
    """The lines of a report, taken one after another."""

    def __init__(self, text: str):
        self.lines, self.at = text.split("\n"), 0
        if self.lines[-1] == "":
            self.lines.pop()

    def line(self) -> Optional[str]:
        """Returns the next line, or None at the end."""
        return self.lines[self.at] if self.at < len(self.lines) else None

    def begins(self, word: str) -> bool:
        """Tells whether the next line has this first word."""
        line = self.line()
        return line is not None and line.partition(" ")[0] == word

    def take(self, form: Pattern) -> Optional[Match]:
        """Takes the next line, if it has the form."""
        line = self.line()
        found = None if line is None else form.fullmatch(line)
        self.at += found is not None
        return found

    def need(self, form: Pattern, wanted: str) -> Match:
        found = self.take(form)
        if not found:
            raise NotAReport(self.at + 1, self.line(), f"{wanted} is wanted")
        return found

    def taken(self, wanted: str) -> NotAReport:
        """Returns what is to be said of the line that was taken last."""
        return NotAReport(self.at, self.lines[self.at - 1], wanted)


class Bindings(Dict[str, Dict[str, Any]]):
    """The bindings that were read, by their texts: equal texts are read once."""

    def __missing__(self, text: str) -> Dict[str, Any]:
        self[text] = read_binding(text)
        return self[text]


def read_report(text: str) -> Report:
    """Reads a report that the program has printed. `NotAReport` says which line is none of one."""
    lines, bindings = Lines(text), Bindings()
    try:
        lines.need(REPORT, "the line 'report 1'")
        runs = [read_run(lines, 0, bindings)]
        while lines.begins("run"):
            runs.append(read_run(lines, len(runs), bindings))
        probes = read_probes(lines)
        total = int(lines.need(TOTAL, "a line 'total'")[1])
        if lines.line() is not None:
            raise NotAReport(lines.at + 1, lines.line(), "the end of the report is wanted")
    except NotAReport:
        raise
    except ValueError as problem:
        raise lines.taken(str(problem)) from problem
    return Report(tuple(runs), probes, total, text)


def read_run(lines: Lines, wanted: int, bindings: Bindings) -> Run:
    """Reads the lines of a run, whose number is known."""
    number, start, clock, ready, following = lines.need(RUN, "a line 'run'").groups()
    if int(number) != wanted:
        raise lines.taken(f"run {wanted} is wanted")
    first = int(clock), int(ready), read_number(following)
    occurrences = read_occurrences(lines, bindings)
    schedule = lines.take(SCHEDULE)
    end = read_end(lines.need(END, "a line 'end'"), bindings)
    count = int(lines.need(OCCURRENCES, "a line 'occurrences'")[1])
    if schedule and count != len(occurrences):
        raise lines.taken(f"{len(occurrences)} occurrences are listed")
    last = int(lines.need(CLOCK, "a line 'clock'")[1])
    places = read_places(lines)
    standing = int(lines.need(READY, "a line 'ready'")[1])
    standing_next = read_number(lines.need(NEXT, "a line 'next'")[1])
    return Run(
        wanted,
        start,
        *first,
        occurrences=occurrences,
        schedule=read_schedule(schedule[1] if schedule else ""),
        end=end,
        count=count,
        clock=last,
        places=places,
        ready=standing,
        next=standing_next,
        monitors=read_monitors(lines),
    )


def read_occurrences(lines: Lines, bindings: Bindings) -> Tuple[Occurrence, ...]:
    found: List[Occurrence] = []
    while lines.begins("occ"):
        number, time, name, binding = lines.need(OCCURRENCE, "an occurrence").groups()
        if int(number) != len(found):
            raise lines.taken(f"occurrence {len(found)} is wanted")
        found.append(Occurrence(len(found), int(time), sys.intern(name), bindings[binding]))
    return tuple(found)


def read_schedule(events: str) -> Tuple[Event, ...]:
    return tuple(Event(EVENTS[event[0]], int(event[1:])) for event in events.split())


def read_end(found: Match, bindings: Bindings) -> End:
    if found["plain"]:
        return End(found["plain"])
    if found["time"]:
        return End("until", int(found["time"]))
    if found["monitor"]:
        return End("stop", found["monitor"])
    element = found["transition"], bindings[found["binding"]]
    return End("fault", Fault(int(found["number"]), found["name"], *element))


def read_places(lines: Lines) -> Dict[str, Marking]:
    places: Dict[str, Marking] = {}
    while lines.begins("place"):
        name, tokens = lines.need(PLACE, "a place and its tokens").groups()
        places[name] = read_marking(tokens)
    return places


def read_monitors(lines: Lines) -> Dict[str, Measured]:
    monitors: Dict[str, Measured] = {}
    while lines.begins("monitor"):
        name, measured = read_monitor(lines)
        monitors[name] = measured
    return monitors


def read_monitor(lines: Lines) -> Tuple[str, Measured]:
    for form, pattern in MONITORS.items():
        found = lines.take(pattern)
        if found:
            *numbers, name = found.groups()
            return name, form(*map(read_number, numbers))
    raise NotAReport(lines.at + 1, lines.line(), "what a monitor has measured is wanted")


def read_probes(lines: Lines) -> Dict[str, int]:
    probes: Dict[str, int] = {}
    while lines.begins("probe"):
        number, name, told = lines.need(PROBE, "what a probe tells").groups()
        if int(number) != len(probes):
            raise lines.taken(f"probe {len(probes)} is wanted")
        probes[name] = int(told)
    return probes


def read_number(text: str) -> Optional[int]:
    """Returns a number of a line, or None where it is `none`."""
    return None if text == "none" else int(text.replace("~", "-"))


def show_number(number: Optional[int]) -> str:
    """Returns how a number is printed in a line."""
    return "none" if number is None else str(number).replace("-", "~")
