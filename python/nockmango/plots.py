"""Plots of reports, by matplotlib: sizes over the time, monitors by seed, and histograms of values.

Each function draws into the axes that it is given, so a study of one's own can put several of them
on one page.
"""
from __future__ import annotations

import sys
from typing import Iterable, Optional, Sequence

from .commands import Named, NotUsable, ended, need, net_of, place_name, words_of
from .measuring import Course, Interval, Number, NotMeasured, courses, figure, interval, values_of

USAGE = (
    "tools/plot REPORT.. (--size PLACE .. --net NET | --monitor NAME | "
    "--histogram TRANSITION VARIABLE) --output FILE"
)
MISSING = (
    "matplotlib is not there: `pip install matplotlib`, or `apt-get install python3-matplotlib`"
)


# ---- what is drawn


def draw_course(axes, course: Course, label: str) -> None:
    """Draws the size of a place over the time, as steps, with its mean as a dashed line."""
    (line,) = axes.step(course.times, course.sizes, where="post", label=label)
    mean = course.mean()
    if mean is not None:
        axes.axhline(mean, color=line.get_color(), linestyle="--", linewidth=0.8)
    axes.set_xlabel("time")
    count_along(axes.yaxis, "tokens")


def draw_figures(axes, names: Sequence[str], figures: Sequence[Number], found: Interval) -> None:
    """Draws the figure of each run as a point, and their mean with its confidence interval."""
    axes.plot(range(len(figures)), figures, "o", label="each report")
    axes.set_xticks(range(len(figures)))
    axes.set_xticklabels(names, rotation=90 if len(names) > 10 else 0)
    draw_mean(axes.axhline, axes.axhspan, found)


def draw_histogram(axes, values: Sequence[int], found: Interval) -> None:
    """Draws how often each value is there, and the mean with its confidence interval."""
    least, greatest = min(values), max(values)
    width = max(1, -(-(greatest - least + 1) // 40))
    edges = [least - 0.5 + width * at for at in range((greatest - least) // width + 2)]
    axes.hist(values, bins=edges, edgecolor="white", linewidth=0.5)
    count_along(axes.yaxis, "occurrences")
    draw_mean(axes.axvline, axes.axvspan, found)


def count_along(axis, what: str) -> None:
    """Labels an axis along which something is counted: it has marks at whole numbers alone."""
    axis.set_label_text(what)
    axis.get_major_locator().set_params(integer=True)


def draw_mean(line, span, found: Interval) -> None:
    """Draws a mean as a line, and its confidence interval as a band."""
    line(found.mean, color="black", linestyle="--", linewidth=0.8, label=f"mean {found.mean:.4g}")
    if found.half_width is not None:
        label = f"± {found.half_width:.2g}"
        span(found.least, found.greatest, color="black", alpha=0.12, linewidth=0, label=label)


# ---- the command


def plot(words: Sequence[str], description: str) -> None:
    """Writes the plot that the words of a command ask for."""
    parser = words_of(USAGE, description)
    kind = parser.add_mutually_exclusive_group(required=True)
    kind.add_argument("--size", metavar="PLACE", action="append", help="its tokens over the time")
    kind.add_argument("--monitor", metavar="NAME", help="its figure, report by report")
    kind.add_argument(
        "--histogram", metavar=("TRANSITION", "VARIABLE"), nargs=2, help="the values of a variable"
    )
    parser.add_argument("--output", metavar="FILE", required=True, help="the picture: .svg, .png")
    given = parser.parse_args(words)
    reports = [Named(path) for path in given.reports]
    try:
        from matplotlib.figure import Figure
    except ImportError:
        raise NotUsable(MISSING) from None
    page = Figure(figsize=(8, 4.5), layout="constrained")
    draw(page.subplots(), given, reports)
    try:
        page.savefig(given.output)
    except ValueError as problem:
        raise NotUsable(f"{given.output}: {problem}") from problem


def draw(axes, given, reports: Sequence[Named]) -> None:
    """Draws what is asked for, with a title and a legend."""
    if given.size:
        draw_sizes(axes, given, reports)
    elif given.monitor is not None:
        names, figures = figures_of(reports, given.monitor, given.run)
        draw_figures(axes, names, figures, interval(figures, given.level))
        axes.set_title(given.monitor)
        axes.set_xlabel("report")
    else:
        draw_values(axes, *given.histogram, given, reports)
    axes.legend()


def draw_sizes(axes, given, reports: Sequence[Named]) -> None:
    """Draws the sizes of places over the time, of each run of each report."""
    need([given.net], "the size of a place is worked out on the net: give it with --net NET")
    net = net_of(given.net)
    for report in reports:
        numbers = {run.number for run in report.runs(given.run)}
        for place in given.size:
            for course in courses(net, report.report, place_name(net, place)):
                if course.run in numbers:
                    further = [report.name] if len(reports) > 1 else []
                    further += [f"run {course.run}"] if len(numbers) > 1 else []
                    draw_course(axes, course, ", ".join([place, *further]))


def figures_of(
    reports: Iterable[Named], name: str, run: Optional[int]
) -> tuple[list[str], list[Number]]:
    """Returns the figure of a monitor in each run, with the name of the report. A run in which
    there is none has no point."""
    found = [(it.name, figure(one, name)) for it in reports for one in it.runs(run)]
    found = [(of, value) for of, value in found if value is not None]
    if not found:
        raise NotMeasured(f"{name} has measured nothing")
    return [of for of, _ in found], [value for _, value in found]


def draw_values(axes, transition: str, variable: str, given, reports: Sequence[Named]) -> None:
    """Draws a histogram of the values of a variable. Its confidence interval is that of the means
    of the reports, since the values of one run hang together."""
    lists = [[*values_of(it.runs(given.run), transition, variable)] for it in reports]
    lists = [values for values in lists if values]
    if not lists:
        raise NotMeasured(f"no report shows an occurrence of {transition}")
    means = [sum(values) / len(values) for values in lists]
    draw_histogram(axes, [it for values in lists for it in values], interval(means, given.level))
    axes.set_title(transition)
    axes.set_xlabel(variable)


def main(description: str, words: Optional[Sequence[str]] = None) -> int:
    """Runs tools/plot."""
    words = sys.argv[1:] if words is None else words
    return ended("tools/plot", lambda given: plot(given, description), words)
