"""The rows of tests/indexes.txt: what an index keeps of what is enabled while tokens, the clock and guards change, and what searches find.

    net: NAME                       the document of a net; it goes up to a blank line, as all blocks do

    changes: NAME                   in that net
    STEP STEP .. -> INDEX INDEX ..  the index at the start, and then after each step

    searches: NAME                  in that net
    TRANSITION TOKEN -> ELEMENT ..  what a search of the transition finds with the token's number on its place, at the start

    elements:                       of no net, each of one variable
    STEP STEP .. -> ANSWER ..       what the steps answer

    lines:                          of a script, as they stand
    LINE -> ANSWER                  what the line answers

    thousands of tokens: NAME       in that net
    NUMBER                          2,000 numbers, each so much above the one before it: see `tokens_by`

    thousands of elements:
    NUMBER                          5,000 elements, each so much above the one before it: see `elements_by`

TOKEN   1.5 is the number 5 on place 1, 1.5@3 has the stamp 3; without one it has the stamp 0
STEP    of changes: +TOKEN puts it, -TOKEN takes the one of that number with the latest stamp up to its own, =4 moves the clock to 4, N/t:x>3 sets
        the guard `x>3` of the transition N/t; of elements: +1.5@3 puts the element of transition 1 and the number 5 in, with the earliest time 3,
        -1.5 takes it out, =4 moves the clock to 4, ! takes all out
INDEX   [0:1,2@0 of 3 next 4]: the elements that are ready, each with its transition, its values and its least time, how many are kept, the next time
ANSWER  of a clock [1.5@3n1 of 2 from 3]: the elements that are due, each with the places that it needs, how many there are, and the least time of them
        all, or `back` where it would go back; of an element that is taken out (1.5@3n1 ), or (none); of one that is put in `there`, if it is so already

An index that is built of the net and the marking has to be told in the same words after each step: else it stands behind ` built as `. The program
cpn_test_program makes the commands of a script; a line that begins with # is a comment.
"""
import collections
import itertools
import re
import subprocess
import tempfile

BLOCK = re.compile(r"(net|changes|searches|elements|lines|thousands of tokens|thousands of elements):(?: (\w+))?$")
TOKENS = 2000
ELEMENTS = 5000
SECONDS = 120


class Row(collections.namedtuple("Row", "place line net script told wanted")):
    """A row: where it stands, its line, its document, its script, what its words are of what is printed, and what they have to be."""


def rows_of(path, lines):
    """Yields the rows of a table, whose lines come with their numbers."""
    nets, kind, name = {}, None, None
    for number, line in lines:
        head = BLOCK.match(line)
        if head:
            kind, name = head.groups()
        elif not line:
            kind = None
        elif kind == "net":
            nets[name] = nets.get(name, "") + line + "\n"
        elif kind:
            yield Row(f"{path}:{number}", line, nets.get(name), *KINDS[kind](line))
        elif not line.startswith("#"):
            raise ValueError(f"{path}:{number}: no row: {line}")


def played(program, net, script):
    """Runs the program on a net, which is bytes, and the lines of a script."""
    with tempfile.TemporaryDirectory() as folder:
        files = [f"{folder}/net.json", f"{folder}/script.txt"]
        for path, text in zip(files, (net, "\n".join([*script, ""]).encode())):
            with open(path, "wb") as file:
                file.write(text)
        return subprocess.run([program, "script", *files], stdin=subprocess.DEVNULL, capture_output=True, timeout=SECONDS)


# ---- what a kind of row asks, how its answer is told, and what is wanted


def changes(line):
    steps, _, wanted = line.partition(" -> ")
    commands = [it for step in steps.split(" ") for it in (change_of(step), "tell")]
    return ["tell", *commands], told_indexes, wanted


def change_of(step):
    """Returns the command of a step of changes."""
    if step.startswith("="):
        return f"clock {step[1:]}"
    if step[0] in "+-":
        token, _, stamp = step[1:].partition("@")
        return f"{'put' if step[0] == '+' else 'take'} {token.replace('.', ' ')} {stamp or 0}"
    return "guard {} {}".format(*step.split(":"))


def told_indexes(lines):
    """Returns the indexes that are kept; and those that are built, where they are told otherwise."""
    pairs = itertools.zip_longest(lines[::2], lines[1::2])
    return "".join(kept if kept == built else f"{kept} built as {built}" for kept, built in pairs)


def searches(line):
    asked, _, wanted = line.partition(" ->")
    return [f"search {asked.replace('.', ' ')}"], lambda lines: "\n".join(lines).strip(), wanted.strip()


def elements(line):
    steps, _, wanted = line.partition(" -> ")
    return [element_command(step) for step in steps.split(" ")], "".join, wanted


def element_command(step):
    """Returns the command of a step of elements."""
    if step == "!":
        return "due clear"
    if step.startswith("="):
        return f"due clock {step[1:]}"
    return f"due {'put' if step[0] == '+' else 'take'} {step[1:].replace('.', ' ').replace('@', ' ')}"


def lines(line):
    asked, _, wanted = line.partition(" -> ")
    return [asked], "\n".join, wanted


def tokens_by(line):
    """The 1 is taken from place 0. Then the numbers below TOKENS are put on it, each so much above the one before it, round and round, and the even
    ones on place 1 too. At last those of the lower half are taken from place 0, the greatest first."""
    numbers = [i * int(line) % TOKENS for i in range(TOKENS)]
    puts = [f"put {place} {number} 0" for number in numbers for place in ([0] if number % 2 else [0, 1])]
    takes = [f"take 0 {number} 0" for number in reversed(range(TOKENS // 2))]
    return ["take 0 1 0", *puts, "tell", *takes, "tell"], told_indexes, ready_from(0) + ready_from(TOKENS // 2)


def ready_from(first):
    """Returns an index in which transition 0 is ready with the numbers from the first on, and transition 1 with the even ones of them."""
    ready = [f"0:{number}@0 " for number in range(first, TOKENS)] + [f"1:{number}@0 " for number in range(first, TOKENS, 2)]
    return f"[{''.join(ready)}of {len(ready)} next 0]"


def elements_by(line):
    """There is room for ELEMENTS. The numbers below ELEMENTS are put in, each so much above the one before it, round and round; the earliest time of
    a number is its place in its hundred. The clock moves to 49, so that half of them are due. The odd ones are taken out, so half of the room is free."""
    numbers = [i * int(line) % ELEMENTS for i in range(ELEMENTS)]
    puts = [f"due put 0 {number} {number % 100}" for number in numbers]
    takes = [f"due take 0 {number}" for number in range(1, ELEMENTS, 2)]
    taken = [f"(0.{number}@{number % 100}n0 )" for number in range(1, ELEMENTS, 2)]
    script = [f"due reserve {ELEMENTS}", *puts, "due clock 49", *takes, "due clock 49", "due spare"]
    return script, "".join, "".join([due_each(1), *taken, due_each(2), str(ELEMENTS // 2)])


def due_each(gap):
    """Returns what is due at 49 of the numbers with a gap between them."""
    due = [f"0.{number}@{number % 100}n0 " for number in range(0, ELEMENTS, gap) if number % 100 <= 49]
    return f"[{''.join(due)}of {ELEMENTS // gap} from 0]"


KINDS = {
    "changes": changes,
    "searches": searches,
    "elements": elements,
    "lines": lines,
    "thousands of tokens": tokens_by,
    "thousands of elements": elements_by,
}
