"""Schedules of calls on a run of several seats, as the program for tests cpn_test_program plays them, and those of tests/schedules.txt, which were worked out.

    schedule: NAME | OPTIONS | NET
    CALL | ANSWER | CLOCK | READY | NEXT | UNCLAIMED | SETTLED
    ..

Each block goes up to a blank line. OPTIONS are those of `words_of`, such as --seats 3; --beside NAME is the net of that name, a file of nets/ or
tests/nets/. NET is such a name, with edits, as in tests/run. The calls of the rows are the schedule, and the rows are what has to be printed;
blanks round a | do not count. A cell `"` is that of the row above, and one alone behind the answer stands for all five. After an answer
`end ..` stand the lines of the run as a report has them, or, after `end for want of memory`, some of them. A line that begins with # is a comment.

Where the last line is `= LINE`, the lines above it are the schedule as it stands, and LINE says why it has no table: the program refuses it with that
line and status 1, or it does not make one of the calls, which is then `error schedule line NUMBER: WHY`. Comments and blank lines are no calls.
"""
import collections
import re
import subprocess
import tempfile

BEGINS = "schedule: "
NOT_MADE = re.compile(r" \| not made: ([^|]*?)(?: \||$)")
SECONDS = 120


# ---- the program


def words_of(schedule, net, beside=None, *, rows="plain", seats=2, steps=1000, until=1 << 62, seed=0):
    """Returns the words of the program: what rows it prints, the limits and the seed of the run, and the files of the schedule, of the net and of
    the net beside, if there is one.
    """
    return [rows, *map(str, (seats, steps, until, seed)), schedule, net, *([beside] if beside else [])]


def written(calls):
    """Returns the text of calls, the first of which shows where the run starts."""
    return "\n".join(["start", *calls, ""])


def played(program, calls, net, beside=None, **options):
    """Runs the program on calls and on nets, which are bytes."""
    texts = {"schedule": written(calls).encode(), "net": net, "beside": beside}
    with tempfile.TemporaryDirectory() as folder:
        files = {name: f"{folder}/{name}" for name, text in texts.items() if text is not None}
        for name, path in files.items():
            with open(path, "wb") as file:
                file.write(texts[name])
        words = words_of(*files.values(), **options)
        return subprocess.run([program, *words], stdin=subprocess.DEVNULL, capture_output=True, timeout=SECONDS)


# ---- the worked schedules


class Schedule(collections.namedtuple("Schedule", "place name words net lines")):
    """A worked schedule: where it stands, its name, the words of its options, its net, and its lines."""

    def options(self):
        """Returns the options, the name of the net beside among them."""
        words = self.words.split()
        return dict(zip((word.removeprefix("--") for word in words[::2]), words[1::2], strict=True))

    def nets(self):
        """Returns the names of the nets that it is played on."""
        beside = self.options().get("beside")
        return [self.net.partition(": ")[0], *([beside] if beside else [])]

    def is_refused(self):
        return self.lines[-1].startswith("= ")

    def calls(self):
        """Returns the calls, each with the number of its line."""
        lines = [(number, line.strip()) for number, line in enumerate(self.lines, 1)]
        if self.is_refused():
            return [(number, line) for number, line in lines[:-1] if line and not line.startswith("#")]
        return [(number, re.sub(r" +\| .*", "", line)) for number, line in lines if " | " in line and not line.startswith("start ")]

    def told(self, printed, status):
        """Returns what was printed, and the status; where a call was not made, that the schedule cannot be played, as is said of one."""
        rows = iter(printed.splitlines())
        for number, call in self.calls():
            why = NOT_MADE.match(next((row for row in rows if row.startswith(f"{call} | ")), "").removeprefix(call))
            if why:
                return f"error schedule line {number}: {why[1]}\n", 1
        return printed, status

    def wanted(self):
        """Returns what has to be told, and the status."""
        if self.is_refused():
            return self.lines[-1].removeprefix("= ") + "\n", 1
        rows, above = [], []
        for line in self.lines:
            if " | " not in line:
                rows += [] if line.startswith("#") else [line]
                continue
            cells = re.split(r" +\| +", line.strip())
            if cells[2:] == ['"']:
                cells[2:] = above[2:]
            cells = [above[at] if cell == '"' else cell for at, cell in enumerate(cells)]
            above = cells if len(cells) > 2 else above
            rows.append(" | ".join(cells))
        return "\n".join([*rows, ""]), 0


def schedules_of(path, lines):
    """Yields the schedules of a table, whose lines come with their numbers."""
    made = None
    for number, line in [*lines, (0, "")]:
        if line.startswith(BEGINS):
            name, words, net = [cell.strip() for cell in re.split(r" \|(?= )", line.removeprefix(BEGINS))]
            made = Schedule(f"{path}:{number}", name, words, net, [])
        elif made and line:
            made.lines.append(line)
        elif made:
            yield made
            made = None
