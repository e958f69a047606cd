"""The rows of tests/tokens.txt and tests/trees.txt: a text of the inscription language, and what the lexer and the parsers make of it.

    read as: KIND
    TEXT -> ANSWER
    ..

The rows below such a line are texts of that kind. In a text {N} stands for the byte of that number, and {N PIECE} for so many times
the piece, in which bytes may stand so too. An answer is as below, or the refusal, such as BadByte(1), Unexpected(6), EndOfText, TooDeep.

KIND    tokens                  each token with its place; `no token` where there is none
        number of tokens        how many there are
        inscription             the tree, with all its parentheses: (+ a b), f(a b), <a b> of a tuple, [a b], {a b} of a sum
        multiset                the same, of a text that an arc or an initial marking may have
        declaration             what is declared, and where it begins
        guard                   each conjunct, and where it begins
        delay                   the tree, and where it begins
        beginnings              where the inscription begins; then where its parts begin, with where the sign between or behind them stands
        parts of a pattern      the first pattern of a case, with where each part begins; then where its result begins
        depth                   how many levels the inscription has, counted plainly
        outcome of a KIND       `read`, `too deep`, or `wrong` where a token does not fit
        value over DECLARATIONS `accepted` as what a monitor measures, or why it is not, where this is declared

A blank line, and one that begins with # and has no arrow, are none. The program cpn_test_program reads a text, as `text KIND`, and prints its
tokens, or its tree as JSON: [AT, FORM, .., PART, ..], where AT is the place of the first token, and the parts are such lists.
"""
import collections
import json
import re

READ_AS = "read as: "
OUTCOME = re.compile("outcome of an? ")
OVER = "value over "
TOKEN = re.compile(r"\)@\d+(?= |$)")
WORDS = {"number of tokens": "tokens", "beginnings": "inscription", "parts of a pattern": "inscription", "depth": "inscription"}
SIGNS = {
    "Later": "@+",
    "Times": "`",
    "Orelse": "orelse",
    "Andalso": "andalso",
    "Equal": "=",
    "NotEqual": "<>",
    "Less": "<",
    "LessOrEqual": "<=",
    "Greater": ">",
    "GreaterOrEqual": ">=",
    "Cons": "::",
    "Append": "^^",
    "Add": "+",
    "Subtract": "-",
    "Concatenate": "^",
    "Multiply": "*",
    "Div": "div",
    "Mod": "mod",
    "Not": "not",
    "Negate": "~",
}


class Row(collections.namedtuple("Row", "place line kind text wanted")):
    """A row: where it stands, its line, what its text is read as, the text as it stands there, and its answer."""

    def words(self):
        """Returns the words on the command line of the program."""
        if self.kind.startswith(OVER):
            return ["text", "value", *re.findall(r"[^\s;][^;]*;", self.kind.removeprefix(OVER))]
        kind = OUTCOME.sub("", self.kind)
        return ["text", WORDS.get(kind, kind)]

    def bytes(self):
        """Returns the bytes of the text."""
        text = re.sub(r"\{(\d+) ((?:\{\d+\}|[^{}])*)\}", lambda found: int(found[1]) * found[2], self.text)
        parts = re.split(r"\{(\d+)\}", text)
        return b"".join(bytes([int(part)]) if at % 2 else part.encode() for at, part in enumerate(parts))

    def told(self, printed):
        """Returns what the row should say, by the line that the program printed."""
        if OUTCOME.match(self.kind):
            return outcome_of(printed)
        if self.kind == "tokens":
            return printed or "no token"
        if self.kind == "number of tokens":
            return printed if printed and "@" not in printed else f"{len(TOKEN.findall(printed))} tokens"
        if not printed.startswith("["):
            return printed
        return TELL.get(self.kind, written)(json.loads(printed))


def rows_of(path, lines):
    """Yields the rows of a table, whose lines come with their numbers."""
    kind = None
    for number, line in lines:
        text, arrow, wanted = line.partition(" -> ")
        if line.startswith(READ_AS):
            kind = line.removeprefix(READ_AS)
        elif arrow and kind:
            yield Row(f"{path}:{number}", line, kind, text, wanted)
        elif line and not line.startswith("#"):
            raise ValueError(f"{path}:{number}: no row: {line}")


def outcome_of(printed):
    """Returns how a text is answered where its depth alone counts."""
    if printed == "TooDeep":
        return "too deep"
    return "read" if printed.startswith("[") else "wrong" if re.match(r"EndOfText$|Unexpected\(", printed) else printed


# ---- trees as text, with all their parentheses


def written(tree):
    """Returns an inscription or a pattern as text."""
    at, form, *rest = tree
    if form in ("name", "number", "text", "truth"):
        return rest[0] if form == "name" else json.dumps(rest[0])
    if form in ALONE:
        return ALONE[form]
    if form in BRACKETS:
        return BRACKETS[form][0] + each(rest) + BRACKETS[form][1]
    return COMPOUND[form](*rest)


def each(trees):
    """Returns several inscriptions or patterns with blanks between them."""
    return " ".join(map(written, trees))


def prefix(operator, operand):
    """Returns an operator before its operand: `Component(2)` is #2."""
    found = re.fullmatch(r"Component\((.*)\)", operator)
    return f"({'#' + found[1] if found else SIGNS[operator]} {written(operand)})"


def let(*parts):
    """Returns a let: its values come in turn with their names before them, and its body last."""
    values = [f"{name} = {written(value)}; " for name, value in zip(parts[:-1:2], parts[1:-1:2])]
    return f"(let {''.join(values)}{written(parts[-1])})"


def case(subject, *arms):
    """Returns a case: the patterns of its arms come in turn with their results behind them."""
    told = [f" | {written(pattern)} => {written(result)}" for pattern, result in zip(arms[::2], arms[1::2])]
    return f"(case {written(subject)}{''.join(told)})"


ALONE = {"empty": "empty", "time": "time", "unit": "()", "any": "_"}
BRACKETS = {"tuple": "<>", "list": "[]", "sum": "{}"}
COMPOUND = {
    "call": lambda name, *parts: f"{name}({each(parts)})",
    "prefix": prefix,
    "infix": lambda operator, at, *operands: f"({SIGNS[operator]} {each(operands)})",
    "stamped": lambda at, stamp, term: f"(@ {written(term)} {stamp})",
    "if": lambda *parts: f"(if {each(parts)})",
    "let": let,
    "case": case,
    "fold": lambda item, total, *parts: f"(fold {item} {total} {each(parts)})",
    "cons": lambda *parts: f"(:: {each(parts)})",
}


def placed(tree):
    """Returns an inscription, and where it begins."""
    return f"{written(tree)} @{tree[0]}"


def conjuncts(guard):
    """Returns the conjuncts of a guard, each with where it begins."""
    return "".join(f"{placed(tree)};" for tree in guard[2:])


# ---- declarations


def declared(declaration):
    """Returns what is declared, and where that begins."""
    at, form, name, *rest = declaration
    told = {"colset": colour_set, "var": variables, "val": value, "fun": function}[form](name, *rest)
    return f"{form} {told} @{at}"


def colour_set(name, timed, form, *parts):
    bodies = {
        "int with": lambda low, high: f"int with {low}..{high}",
        "with": lambda *names: f"with {'|'.join(names)}",
        "product": lambda *names: f"product {'*'.join(names)}",
        "list": lambda item: f"list {item}",
        "union": lambda *parts: f"union {'+'.join(map(':'.join, parts))}",
        "named": lambda other: other,
    }
    body = bodies[form](*parts) if form in bodies else form
    return f"{name} {body}{' timed' if timed else ''}"


def variables(colour, *names):
    return f"{','.join(names)} {colour}"


def value(name, tree):
    return f"{name} {written(tree)}"


def function(name, colour, body, *parameters):
    return " ".join([name, *map(":".join, parameters), colour, written(body)])


# ---- where the parts stand, and how deep they are


def parts_of(tree):
    """Returns the parts of an inscription or of a pattern."""
    return [part for part in tree[2:] if isinstance(part, list)]


def beginnings(tree):
    """Returns where an inscription begins, and where its parts and its sign stand."""
    places = [part[0] for part in parts_of(tree)]
    if tree[1] in ("infix", "stamped"):
        places.insert(1, tree[3 if tree[1] == "infix" else 2])
    return " ".join([f"{tree[0]}:", *map(str, places)])


def first_pattern(tree):
    """Returns the first pattern of a case with where each part begins, and where its result begins."""
    _, pattern, result = parts_of(tree)[:3]
    return f"{with_places(pattern)} => {result[0]}"


def with_places(pattern):
    """Returns a pattern, with where it begins behind each part."""
    at, form, *rest = pattern
    parts = [with_places(part) for part in parts_of(pattern)]
    if form in ("name", "number", "text", "truth"):
        told = rest[0] if isinstance(rest[0], str) else json.dumps(rest[0])
    elif form == "cons":
        told = f"cons({' '.join(parts)})"
    elif form in ("any", "unit"):
        told = {"any": "_", "unit": "unit"}[form]
    else:
        told = f"{rest[0] if form == 'call' else form}({''.join(parts)})"
    return f"{told}@{at}"


def levels(tree):
    """Returns how many levels a tree has: a form is a level above the deepest of its parts."""
    return 1 + max(map(levels, parts_of(tree)), default=0)


def deep(tree):
    return f"{levels(tree)} deep"


TELL = {
    "beginnings": beginnings,
    "parts of a pattern": first_pattern,
    "depth": deep,
    "declaration": declared,
    "guard": conjuncts,
    "delay": placed,
}
