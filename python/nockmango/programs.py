"""The program: how it is found, how it is run, and what its exit status means.

    report = run("nets/weight_limit.json", seed=1)
"""
from __future__ import annotations

import operator
import os
import shutil
import subprocess
from pathlib import Path
from typing import Dict, List, Optional, Union

from .documents import Source, bytes_of
from .explaining.options import RANGES
from .refusals import Refusal
from .reports import Report, read_report

Program = Optional[Union[str, "os.PathLike[str]"]]

VARIABLE = "NOCKMANGO"
NAME = "cpn_sim"
BUILT = str(Path(__file__).resolve().parents[2] / "crates" / "cpn_sim" / "out" / NAME)
REPORTS = (0, 6)  # the statuses of a report: each run has ended, the last one maybe by a fault
REFUSALS = (1, 2, 3, 4, 5, 9)
FAILURES = {7: "what it has to print could not be written", 8: "there is not enough memory"}


class ProgramFailed(Exception):
    """The program has ended without a report and without an error line. `status` is how."""

    def __init__(self, status: int, printed: str = ""):
        super().__init__(status, printed)
        self.status, self.printed = status, printed

    def __str__(self) -> str:
        why = FAILURES.get(self.status)
        if why is None:
            why = "a signal ended it" if self.status < 0 else "it printed no report"
        return f"the program ended with status {self.status}: {why}"


def find_program(program: Program = None) -> str:
    """Returns the path of the program.

    It is the one that is given, or that the environment variable NOCKMANGO names; otherwise the one
    that was built in the repository of this package, and otherwise the `cpn_sim` on the PATH.
    FileNotFoundError says where it was looked for.
    """
    for given, source in ((program, "the program"), (os.environ.get(VARIABLE), f"${VARIABLE}")):
        if given:
            found = shutil.which(os.fspath(given))
            if not found:
                raise FileNotFoundError(f"{source} is {os.fspath(given)}, which is no program")
            return found
    found = shutil.which(BUILT) or shutil.which(NAME)
    if not found:
        raise FileNotFoundError(
            f"there is no {NAME} on the PATH, and none is built in a clone that this package lies "
            f"in: ${VARIABLE} names the program, and README.md says where it comes from"
        )
    return found


def run(
    net: Source,
    seed: int = 0,
    steps: Optional[int] = None,
    until: Optional[int] = None,
    workers: int = 1,
    trace: bool = True,
    program: Program = None,
    timeout: Optional[float] = None,
) -> Report:
    """Runs the program on a net, and returns its report.

    The net is a `Net`, the JSON value of a document, its text, or the path of its file. The options
    are those of docs/NETS.md. Without a trace no occurrences are listed. A run that ends by a
    fault has a report too: `report.last.end` says so.

    `Refusal` is raised where the options or the document are refused, `ProgramFailed` where the
    program ends without a word, FileNotFoundError where there is none, and
    subprocess.TimeoutExpired after so many seconds.
    """
    options = {"--seed": seed, "--steps": steps, "--until": until, "--workers": workers}
    return called(net, options, [] if trace else ["--trace", "off"], program, timeout)


def run_generated(
    seed: int = 0,
    steps: Optional[int] = None,
    until: Optional[int] = None,
    workers: int = 1,
    program: Program = None,
    timeout: Optional[float] = None,
) -> Report:
    """Runs the program on the net that it generates for a seed: a ring of places. The report has
    neither occurrences nor places."""
    options = {"--seed": seed, "--steps": steps, "--until": until, "--workers": workers}
    return called(b"", options, ["--mode", "large"], program, timeout)


def called(
    net: Source,
    options: Dict[str, Optional[int]],
    words: List[str],
    program: Program,
    timeout: Optional[float],
) -> Report:
    """Calls the program with the options that have a number, and further words."""
    numbers = {flag: operator.index(it) for flag, it in options.items() if it is not None}
    document = bytes_of(net)
    command = [find_program(program), *words]
    for flag, number in numbers.items():
        command += [flag, str(number)]
    ran = subprocess.run(command, input=document, stdout=subprocess.PIPE, timeout=timeout)
    printed = ran.stdout.decode("utf-8", "backslashreplace")
    if ran.returncode in REPORTS:
        return read_report(printed)
    if ran.returncode in REFUSALS and printed.startswith("error "):
        text = document.decode("utf-8", "backslashreplace")
        raise Refusal(ran.returncode, printed.rstrip("\n"), text, flag_refused(printed, numbers))
    raise ProgramFailed(ran.returncode, printed)


def flag_refused(printed: str, numbers: Dict[str, int]) -> str:
    """Returns the first flag whose number is out of its range, where the options are refused."""
    if printed == "error words\n":
        for flag, number in numbers.items():
            least, greatest = RANGES[flag]
            if not least <= number <= greatest:
                return flag
    return ""
