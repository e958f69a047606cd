"""Tables of reports, as comma-separated values: what monitors have measured, the size of a place
over the time, and the occurrences."""
from __future__ import annotations

import csv
import sys
from typing import Iterable, Iterator, Optional, Sequence

from . import model
from .commands import Named, ended, need, net_of, place_name, words_of
from .measuring import (
    Interval,
    NotMeasured,
    courses,
    figure,
    interval,
    require_occurrences,
)
from .reports import Count, Measured, Run, Size, StopCount, Value
from .values import show_binding, show_value

Row = Sequence[object]

USAGE = "tools/table REPORT.. (--monitors | --intervals | --size PLACE --net NET | --occurrences)"


def number(it: object) -> str:
    """Returns a number as a table has it, with six digits where it is a fraction; nothing where
    there is none."""
    if it is None:
        return ""
    return f"{it:.6g}" if isinstance(it, float) else str(it)


def cell(value: object) -> str:
    """Returns a value as a table has it: a number with the sign of other programs, a string without
    its quotes, and any other value as it stands in a report."""
    if isinstance(value, str):
        return value
    if isinstance(value, int) and not isinstance(value, bool):
        return str(value)
    return show_value(value)


# ---- the tables


def monitor_rows(reports: Iterable[Named], run: Optional[int] = None) -> Iterator[Row]:
    """Yields what each monitor has measured in each run. `number` is how many occurrences or values
    there were, or the last number of tokens; `sum` is that of the values, or of the size over the
    time; `mean` is the sum divided by the number of values, or by the time."""
    yield (
        *("report", "run", "monitor", "kind", "time", "number", "sum", "mean"),
        *("least", "greatest", "faulted"),
    )
    for report in reports:
        for it in report.runs(run):
            for name in it.monitors:
                cells = map(number, monitor_cells(it, name))
                yield report.name, it.number, name, it.monitors[name].kind, *cells


def monitor_cells(run: Run, name: str) -> Row:
    """Returns the numbers of a monitor: the time of the run, and those of its kind."""
    it = run.monitors[name]
    if isinstance(it, Size):
        found = (it.last, it.area, figure(run, name), it.least, it.greatest, None)
    elif isinstance(it, Value):
        found = (it.count, it.sum, figure(run, name), it.least, it.greatest, it.faulted)
    else:
        found = (it.n, None, None, None, None, None)
    return (run.duration, *found)


def interval_rows(
    reports: Iterable[Named], run: Optional[int] = None, level: float = 0.95
) -> Iterator[Row]:
    """Yields of each monitor in each run its figure, as the mean over all reports with its
    confidence interval. The figure is the mean over the time of a size, the mean of values, and the
    number of anything else. A report in which there is none counts as none."""
    yield "run", "monitor", "figure", "reports", "mean", "half width", "from", "to"
    found: dict[tuple[int, str, str], list] = {}
    for report in reports:
        for it in report.runs(run):
            for name, measured in it.monitors.items():
                figures = found.setdefault((it.number, name, figure_name(measured)), [])
                value = figure(it, name)
                figures += [] if value is None else [value]
    for key, figures in found.items():
        made = interval(figures, level) if figures else Interval(0, float("nan"), None)
        cells = (made.mean if figures else None, made.half_width, made.least, made.greatest)
        yield *key, made.count, *map(number, cells)


def figure_name(measured: Measured) -> str:
    """Returns what the figure of a monitor is."""
    if isinstance(measured, Size):
        return "mean size"
    if isinstance(measured, Value):
        return "mean value"
    return "count" if isinstance(measured, (Count, StopCount)) else "last size"


def size_rows(
    net: model.Net, reports: Iterable[Named], place: str, run: Optional[int] = None
) -> Iterator[Row]:
    """Yields how many tokens a place has, with the time from which on: at the start of each run,
    after each occurrence that changes the number, and at its last clock."""
    yield "report", "run", "time", "size"
    name = place_name(net, place)
    for report in reports:
        wanted = {it.number for it in report.runs(run)}
        for course in courses(net, report.report, name):
            if course.run in wanted:
                for time, size in zip(course.times, course.sizes):
                    yield report.name, course.run, time, size


def occurrence_rows(reports: Iterable[Named], run: Optional[int] = None) -> Iterator[Row]:
    """Yields each occurrence with its time, its transition and its binding."""
    yield "report", "run", "number", "time", "transition", "binding"
    for report in reports:
        require_occurrences(report.report)
        for it in report.runs(run):
            for one in it.occurrences:
                binding = show_binding(one.binding)
                yield report.name, it.number, one.number, one.time, one.transition, binding


def transition_rows(
    reports: Sequence[Named], transition: str, run: Optional[int] = None
) -> Iterator[Row]:
    """Yields each occurrence of one transition with its time, and with its variables as columns."""
    found = []
    for report in reports:
        require_occurrences(report.report)
        for it in report.runs(run):
            found += [(report.name, it.number, one) for one in it.of(transition)]
    if not found:
        raise NotMeasured(f"no report shows an occurrence of {transition}")
    names = [*dict.fromkeys(name for *_, one in found for name in one.binding)]
    yield "report", "run", "number", "time", *names
    for name, number_of_run, one in found:
        values = (cell(one.binding[it]) if it in one.binding else "" for it in names)
        yield name, number_of_run, one.number, one.time, *values


# ---- the command


def table(words: Sequence[str], description: str) -> None:
    """Prints the table that the words of a command ask for."""
    parser = words_of(USAGE, description)
    kind = parser.add_mutually_exclusive_group(required=True)
    kind.add_argument("--monitors", action="store_true", help="what monitors have measured")
    kind.add_argument("--intervals", action="store_true", help="means over all reports")
    kind.add_argument("--size", metavar="PLACE", help="the number of tokens over the time")
    kind.add_argument("--occurrences", action="store_true", help="the occurrences")
    parser.add_argument("--transition", metavar="NAME", help="only occurrences of this one")
    given = parser.parse_args(words)
    reports = [Named(path) for path in given.reports]
    csv.writer(sys.stdout, lineterminator="\n").writerows(rows_of(given, reports))


def rows_of(given, reports: Sequence[Named]) -> Iterator[Row]:
    """Returns the rows of the table that is asked for."""
    if given.monitors:
        return monitor_rows(reports, given.run)
    if given.intervals:
        return interval_rows(reports, given.run, given.level)
    if given.size is not None:
        need([given.net], "the size of a place is worked out on the net: give it with --net NET")
        return size_rows(net_of(given.net), reports, given.size, given.run)
    if given.transition is not None:
        return transition_rows(reports, given.transition, given.run)
    return occurrence_rows(reports, given.run)


def main(description: str, words: Optional[Sequence[str]] = None) -> int:
    """Runs tools/table."""
    words = sys.argv[1:] if words is None else words
    return ended("tools/table", lambda given: table(given, description), words)
