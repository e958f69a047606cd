"""What the commands that read reports have in common: their words, their files, and how they
complain."""
from __future__ import annotations

import argparse
import json
import os
import sys
from typing import Callable, Iterable, Iterator, Optional, Sequence

from . import model
from .measuring import NotMeasured
from .reports import Report, Run, read_report


# What the model runs into where a document is none that the program accepts.
NO_NET = (
    *(ValueError, LookupError, TypeError, AttributeError, RecursionError),
    *(model.Fault, model.Wrong),
)


class NotUsable(Exception):
    """A file or a word is not what the command needs."""


class Named:
    """A report and the name by which a table calls it: that of its file, without the folder and
    without the ending."""

    def __init__(self, path: str):
        self.name = os.path.splitext(os.path.basename(path))[0]
        try:
            self.report: Report = read_report(text_of(path))
        except (ValueError, LookupError) as problem:
            raise NotUsable(f"{path} is no report: {problem}") from problem

    def runs(self, number: Optional[int]) -> Iterator[Run]:
        """Yields all runs of the report, or the one of this number."""
        found = [run for run in self.report.runs if number in (None, run.number)]
        if not found:
            raise NotMeasured(f"{self.name} has no run {number}")
        yield from found


def text_of(path: str) -> str:
    """Returns the text of a file, or of the standard input for `-`."""
    if path == "-":
        return sys.stdin.read()
    with open(path, encoding="utf-8") as file:
        return file.read()


def net_of(path: str) -> model.Net:
    """Returns the net of a document that the program accepts."""
    try:
        return model.Net(json.loads(text_of(path)))
    except NO_NET as problem:
        raise NotUsable(
            f"{path} is no net that the program accepts, and tools/explain says why "
            f"({type(problem).__name__}: {problem})"
        ) from problem


def place_name(net: model.Net, name: str) -> str:
    """Returns the name that the report has for a place, which may be a member of a compound
    place."""
    if name not in net.compound:
        raise NotUsable(f"the net has no place {name}; it has {', '.join(net.timed)}")
    return net.compound[name]


def words_of(usage: str, description: str) -> argparse.ArgumentParser:
    """Returns the parser of a command that reads reports."""
    words = argparse.ArgumentParser(
        prog=usage.split()[0],
        usage=usage,
        description=description,
        formatter_class=argparse.RawDescriptionHelpFormatter,
    )
    words.add_argument("reports", metavar="REPORT", nargs="+", help="a report; - is the input")
    words.add_argument("--net", metavar="NET", help="the net document of the reports")
    words.add_argument("--run", metavar="N", type=int, help="only the run of this number")
    words.add_argument(
        "--level", metavar="P", type=level_of, default=0.95, help="of confidence intervals: 0.95"
    )
    return words


def level_of(word: str) -> float:
    """Returns the level that a word gives."""
    level = float(word)
    if not 0 < level < 1:
        raise argparse.ArgumentTypeError(f"a level lies between 0 and 1, and {word} does not")
    return level


def ended(name: str, command: Callable[[Sequence[str]], None], words: Sequence[str]) -> int:
    """Runs a command, and returns its status: 1 where it complains. A reader of its table who wants
    no more lines is no reason to."""
    try:
        command(words)
        sys.stdout.flush()
    except BrokenPipeError:
        os.dup2(os.open(os.devnull, os.O_WRONLY), sys.stdout.fileno())
    except (OSError, NotMeasured, NotUsable, model.Wrong) as problem:
        print(f"{name}: {problem}", file=sys.stderr)
        return 1
    return 0


def need(words: Iterable[Optional[object]], complaint: str) -> None:
    """Raises NotUsable where one of some words is not given."""
    if any(it is None for it in words):
        raise NotUsable(complaint)
