"""Random inscriptions of the language, each made together with what it means, so that no text is read.

Small integers are 0 to 2, and wide ones 0 to 299, which is no small colour set; a list on a place has at most two items.
"""
import collections
import itertools
import re

import scripts  # by which the package is found
from nockmango.model.faults import Fault

LATEST = 2**62


# ---- colour sets. Their values are those of Python, which compare as they should: a constant is its number, a value of the
# union the number of its constructor and its argument, if it has one.

LIGHTS = ("red", "amber", "green")
ITEMS = range(3)
WIDE = range(300)
PAIRS = [*itertools.product(ITEMS, range(len(LIGHTS)))]
LISTS = sorted(items for length in range(3) for items in itertools.product(ITEMS, repeat=length))


class Colour(collections.namedtuple("Colour", "kind body values admits shown small timed", defaults=(False,))):
    """A colour set: its type, its declaration, its values in order, whether it has a value of its type, how a value is printed,
    whether it has at most 256 values, and whether it is timed.
    """


def shown_int(value):
    return str(value).replace("-", "~")


def shown_pair(value):
    return f"({shown_int(value[0])},{LIGHTS[value[1]]})"


def shown_list(value):
    return f"[{','.join(map(shown_int, value))}]"


def shown_reply(value):
    return "none" if value[0] == 0 else f"one({shown_int(value[1])})" if value[0] == 1 else f"two({shown_pair(value[1])})"


def is_item(value):
    return value in ITEMS


def is_pair(value):
    return value[0] in ITEMS


def is_reply(value):
    return value[0] == 0 or (is_item if value[0] == 1 else is_pair)(value[1])


COLOURS = {
    "INT": Colour("int", "int with 0..2", ITEMS, is_item, shown_int, True),
    "WIDE": Colour("int", "int with 0..299", WIDE, lambda value: value in WIDE, shown_int, False),
    "BOOL": Colour("bool", "bool", (False, True), lambda _: True, lambda value: str(value).lower(), True),
    "LIGHT": Colour("light", f"with {' | '.join(LIGHTS)}", range(3), lambda _: True, lambda value: LIGHTS[value], True),
    "PAIR": Colour("pair", "product INT * LIGHT", PAIRS, is_pair, shown_pair, True),
    "LIST": Colour("list", "list INT", LISTS, lambda value: all(map(is_item, value)), shown_list, False),
    "REPLY": Colour(
        "reply",
        "union none + one : INT + two : PAIR",
        [(0,), *((1, it) for it in ITEMS), *((2, it) for it in PAIRS)],
        is_reply,
        shown_reply,
        True,
    ),
}
TIMED = {
    f"T{name}": colour._replace(body=f"{name if name in ('LIGHT', 'REPLY') else colour.body} timed", timed=True)
    for name, colour in COLOURS.items()
}
KINDS = sorted({colour.kind for colour in COLOURS.values()})
VARIABLES = dict(zip("xwblypvczrmaq", "INT WIDE BOOL LIST INT PAIR WIDE LIGHT INT REPLY LIST LIGHT PAIR".split()))


def colour_of(name):
    return COLOURS[VARIABLES[name]]


# ---- inscriptions of one value: the text, the variables in it, what it means under a binding; the pairs of a variable that it
# finds as a conjunct and those that have to be known for that; and whether it is made as a pattern is


class Expression(collections.namedtuple("Expression", "text names meaning finds is_pattern", defaults=((), False))):
    pass


def literal(text, value):
    return Expression(text, frozenset(), lambda _: value, (), True)


def variable(name):
    return Expression(name, frozenset(name), lambda binding: binding[name], (), True)


TIME = Expression("time", frozenset(), lambda binding: binding["time"])


def names_of(parts):
    return frozenset().union(*(part.names for part in parts))


def variables_in(parts):
    """Returns the variables in some inscriptions, in the order of their declarations."""
    names = names_of(parts)
    return tuple(name for name in VARIABLES if name in names)


def form(text, meaning, *parts, is_pattern=False):
    """Returns a form of which all parts are evaluated, from left to right."""
    return Expression(
        text.format(*(part.text for part in parts)),
        names_of(parts),
        lambda binding: meaning(*[part.meaning(binding) for part in parts]),
        is_pattern=is_pattern and all(part.is_pattern for part in parts),
    )


def branch(text, condition, then, other, finds=()):
    """Returns a form of which one of two parts is evaluated."""
    return Expression(
        text.format(condition.text, then.text, other.text),
        names_of((condition, then, other)),
        lambda binding: (then if condition.meaning(binding) else other).meaning(binding),
        finds,
    )


def both_of(left, right):
    return branch("({0} andalso {1})", left, right, literal("", False), (*left.finds, *right.finds))


def either_of(left, right):
    return branch("({0} orelse {2})", left, literal("", True), right)


def equation(left, right):
    sides = ((left, right), (right, left))
    finds = tuple((side.text, other.names) for side, other in sides if side.text in VARIABLES)
    return form("({} = {})", lambda m, n: m == n, left, right)._replace(finds=finds)


def within(operation):
    def meaning(*numbers):
        if not -(2**63) <= (number := operation(*numbers)) < 2**63:
            raise Fault("overflow")
        return number

    return meaning


def divided(operation):
    def meaning(number, divisor):
        if divisor == 0:
            raise Fault("divide_by_zero")
        return operation(number, divisor)

    return meaning


def of_list(operation):
    def meaning(items):
        if not items:
            raise Fault("empty_list")
        return operation(items)

    return meaning


def number_in(value):
    """Returns what `case r of one(k) => k + 1 | two(k, _) => k` means."""
    if value[0] == 0:
        raise Fault("no_case")
    return value[1] + 1 if value[0] == 1 else value[1][0]


def as_parts(*parts):
    return parts


def in_front(item, items):
    return (item, *items)


# ---- multisets: the text, the variables in it, those in its binding terms, the terms that it means under a binding at a place
# of a colour set, and how loose it is: 0 is a term, 1 a term with a delay, and 2 needs parentheses within a sum


class Term(collections.namedtuple("Term", "count value delay")):
    pass


class Multiset(collections.namedtuple("Multiset", "text names bound meaning looseness")):
    pass


EMPTY = Multiset("empty", frozenset(), frozenset(), lambda binding, colour: [], 0)


def token_of(expression, binding, colour):
    value = expression.meaning(binding)
    if not colour.admits(value):
        raise Fault("not_in_colour")
    return value


def one(expression):
    bound = expression.names if expression.is_pattern else frozenset()
    return Multiset(expression.text, expression.names, bound, lambda *given: [Term(1, token_of(expression, *given), 0)], 0)


def times(coefficient, expression):
    def meaning(binding, colour):
        count = coefficient.meaning(binding)
        if count < 0:
            raise Fault("bad_coefficient")
        return [Term(count, token_of(expression, binding, colour), 0)]

    binds = expression.is_pattern and coefficient.text.isdigit() and coefficient.text != "0"
    text = f"{coefficient.text}`{expression.text}"
    return Multiset(text, names_of((coefficient, expression)), expression.names if binds else frozenset(), meaning, 0)


def multiset_branch(condition, then, other):
    meaning = lambda binding, colour: (then if condition.meaning(binding) else other).meaning(binding, colour)
    text = f"if {condition.text} then {then.text} else {other.text}"
    return Multiset(text, names_of((condition, then, other)), frozenset(), meaning, 2)


def sum_of(terms):
    if len(terms) == 1:
        return terms[0]
    meaning = lambda *given: [it for term in terms for it in term.meaning(*given)]
    text = " ++ ".join(f"({term.text})" if term.looseness == 2 else term.text for term in terms)
    return Multiset(text, names_of(terms), frozenset().union(*(term.bound for term in terms)), meaning, 2)


def later(sign, terms, delay):
    """Returns terms with a delay behind them, which is evaluated once, after them, and adds to the delay of each."""

    def meaning(binding, colour):
        found, added = terms.meaning(binding, colour), delay.meaning(binding)
        found = [term._replace(delay=term.delay + added) for term in found]
        if added < 0 or any(term.delay > LATEST for term in found):
            raise Fault("bad_delay")
        return found

    text = f"({terms.text})" if terms.looseness else terms.text
    return Multiset(f"{text} {sign} {delay.text}", names_of((terms, delay)), frozenset(), meaning, 1)


# ---- a random inscription, over some of the variables


class Writer:
    """Makes inscriptions over a pool of variables, and over the clock where `has_time` says so."""

    def __init__(self, draw, pool):
        self.draw, self.pool, self.has_time = draw, pool, False

    def any_of(self, *makers):
        return self.draw.choice(makers)()

    def known(self, kind, depth):
        """Returns a variable of a type, more often where there is no depth left, or None."""
        names = [name for name in self.pool if colour_of(name).kind == kind]
        return variable(self.draw.choice(names)) if names and self.draw.random() < (0.6 if depth else 0.8) else None

    def of(self, kind, depth=2):
        """Returns an inscription of a type. It stands in parentheses where it has parts, and is no bare `[]`."""
        return self.known(kind, depth) or getattr(self, kind)(depth - 1)

    def int(self, depth):
        if self.has_time and self.draw.random() < 0.2:
            return self.any_of(lambda: TIME, lambda: form("({} mod {})", lambda m, n: m % n, TIME, literal("3", 3)))
        number = self.draw.choice((0, 0, 1, 1, 1, 2, 2, 3, 40, -1))
        if depth < 0 or self.draw.random() < 0.4:
            return literal(shown_int(number), number)
        of = lambda kind: self.of(kind, depth)
        return self.any_of(
            lambda: form("({} + {})", within(lambda m, n: m + n), of("int"), of("int")),
            lambda: form("({} - {})", within(lambda m, n: m - n), of("int"), of("int")),
            lambda: form("({} * {})", within(lambda m, n: m * n), of("int"), of("int")),
            lambda: form("({} div {})", divided(lambda m, n: m // n), of("int"), of("int")),
            lambda: form("({} mod {})", divided(lambda m, n: m % n), of("int"), of("int")),
            lambda: form("(#1 {})", lambda pair: pair[0], of("pair")),
            lambda: form("hd({})", of_list(lambda items: items[0]), of("list")),
            lambda: form("length({})", len, of("list")),
            lambda: form("(case {} of one(k) => k + 1 | two(k, _) => k)", number_in, of("reply")),
            lambda: branch("(if {} then {} else {})", of("bool"), of("int"), of("int")),
        )

    def bool(self, depth):
        if depth < 0:
            return self.any_of(lambda: literal("true", True), lambda: literal("false", False))
        of = lambda kind: self.of(kind, depth)
        return self.any_of(
            lambda: self.comparison(depth),
            lambda: self.comparison(depth),
            lambda: self.equality(depth),
            lambda: both_of(of("bool"), of("bool")),
            lambda: either_of(of("bool"), of("bool")),
            lambda: form("(not {})", lambda it: not it, of("bool")),
            lambda: form("mem({}, {})", lambda items, it: it in items, of("list"), of("int")),
        )

    def comparison(self, depth):
        left, right = self.of("int", depth), self.of("int", depth)
        return self.any_of(
            lambda: form("({} < {})", lambda m, n: m < n, left, right),
            lambda: form("({} <= {})", lambda m, n: m <= n, left, right),
            lambda: form("({} > {})", lambda m, n: m > n, left, right),
            lambda: form("({} >= {})", lambda m, n: m >= n, left, right),
        )

    def equality(self, depth):
        kind = self.draw.choice(KINDS)
        left, right = self.of(kind, depth), self.of(kind, depth)
        return self.any_of(
            lambda: form("({} <> {})", lambda m, n: m != n, left, right),
            lambda: equation(left, right),
        )

    def light(self, depth):
        if depth < 0 or self.draw.random() < 0.5:
            number = self.draw.randrange(len(LIGHTS))
            return literal(LIGHTS[number], number)
        return form("(#2 {})", lambda pair: pair[1], self.of("pair", depth))

    def pair(self, depth):
        return form("({}, {})", as_parts, self.of("int", depth), self.of("light", depth), is_pattern=True)

    def list(self, depth):
        """Returns a list of at most two items, where those of the variables have no more."""
        if depth < 0 or self.draw.random() < 0.4:
            items = [self.of("int", depth) for _ in range(self.draw.randrange(1, 3))]
            return form(f"[{', '.join('{}' for _ in items)}]", as_parts, *items, is_pattern=True)
        item, items = self.of("int", depth), self.of("list", depth)
        is_short = form("length({}) < 2", lambda it: len(it) < 2, items)
        longer = lambda made, other: branch("(if {} then {} else {})", is_short, made, other)
        return self.any_of(
            lambda: form("tl({})", of_list(lambda it: it[1:]), items),
            lambda: form("rev({})", lambda it: it[::-1], items),
            lambda: longer(form("{} :: {}", in_front, item, items), items),
            lambda: longer(form("{} ^^ [{}]", lambda it, i: (*it, i), items, item), literal("[]", ())),
        )

    def reply(self, depth):
        return self.any_of(
            lambda: literal("none", (0,)),
            lambda: form("one({})", lambda it: (1, it), self.of("int", depth), is_pattern=True),
            lambda: form("two({})", lambda it: (2, it), self.of("pair", depth), is_pattern=True),
        )

    def pattern(self, kind, depth=2):
        """Returns a pattern of a type. What it means is the value that it asks for."""
        if found := self.known(kind, depth):
            return found
        part = lambda of: self.pattern(of, max(0, depth - 1))
        made = lambda text, meaning, *parts: form(text, meaning, *parts, is_pattern=True)
        if kind == "int":
            number = self.draw.choice(ITEMS)
            return literal(str(number), number)
        if kind == "pair":
            return made("({}, {})", as_parts, part("int"), part("light"))
        if kind == "list" and depth:
            return self.any_of(
                lambda: made("{} :: {}", in_front, part("int"), part("list")),
                lambda: made("{} :: {}", in_front, part("int"), part("list")),
                lambda: made("[{}]", as_parts, part("int")),
                lambda: made("[{}, {}]", as_parts, part("int"), part("int")),
            )
        if kind == "list":
            return literal("[]", ())
        if kind == "reply":
            return self.any_of(
                lambda: literal("none", (0,)),
                lambda: made("one({})", lambda it: (1, it), part("int")),
                lambda: made("two({})", lambda it: (2, it), part("pair")),
                lambda: made("two({}, {})", lambda *it: (2, it), part("int"), part("light")),
            )
        return getattr(self, kind)(-1)

    def term(self, kind, is_input):
        """Returns a term of a multiset of a type."""
        if is_input and self.draw.random() < 0.8:
            pattern = self.pattern(kind)
            counts = (None, None, None, 1, 1, 2)
            return one(pattern) if (count := self.draw.choice(counts)) is None else times(literal(str(count), count), pattern)
        value = self.of(kind)
        return self.any_of(
            lambda: one(value),
            lambda: one(value),
            lambda: times(self.int(-1), value),
            lambda: times(self.of("int", 1), value),
            lambda: multiset_branch(self.of("bool"), one(value), one(self.of(kind))),
            lambda: multiset_branch(self.of("bool"), EMPTY, times(literal("1", 1), value)),
            lambda: EMPTY,
        )

    def multiset(self, kind, is_input, is_late=False):
        """Returns a multiset of a type: one term, a sum, or a sum with a sum in it, none of whose terms binds. Where it may be
        late, delays stand behind terms, behind sums, and behind what has one already.
        """
        late = lambda made: later("@+", made, self.delay()) if is_late and self.draw.random() < 0.35 else made
        terms = [late(self.term(kind, is_input)) for _ in range(self.draw.choice((1, 1, 1, 2, 3)))]
        if len(terms) < 3:
            return late(sum_of(terms))
        return late(sum_of([late(sum_of(terms[:2])._replace(bound=frozenset())), terms[2]]))

    def delay(self):
        """Returns a delay: a number, mostly a small one, or an inscription over the variables and the clock."""
        if self.draw.random() < 0.3:
            return self.of("int", 1)
        number = self.draw.choice((0, 1, 1, 2, 3, 5, 6) if self.draw.random() < 0.8 else (-1, -1, LATEST, LATEST + 1))
        return literal(shown_int(number), number)

    def delay_of_transition(self):
        """Returns the text of a delay of a transition, in which a sign may stand in front, and the delay."""
        delay = self.delay()
        return f"{self.draw.choice(('', '', '@+', '@+ '))}{delay.text}", delay

    def conjunct(self, bound):
        """Returns a conjunct: a truth value, or an equation of a variable, mostly of one that is not bound."""
        if self.draw.random() < 0.3:
            return self.of("bool")
        open_names = [name for name in self.pool if name not in bound]
        sides = [variable(self.draw.choice(open_names if open_names and self.draw.random() < 0.8 else self.pool))]
        sides.append(self.of(colour_of(sides[0].text).kind))
        self.draw.shuffle(sides)
        return equation(*sides)

    def guard(self, bound):
        """Returns the text of a guard and its conjuncts: none, one or two, in brackets or joined by `andalso`."""
        conjuncts = [self.conjunct(bound) for _ in range(self.draw.choice((0, 1, 1, 2)))]
        texts = [it.text for it in conjuncts]
        return f"[{', '.join(texts)}]" if self.draw.random() < 0.5 else " andalso ".join(texts), conjuncts


def first_unknown(text, names):
    """Returns the first variable in a text that is none of these, or None. A variable is one letter; k is a local."""
    found = re.findall(r"\b[a-z]\b", text.text)
    return next((name for name in found if name in VARIABLES and name not in names), None)


def any_value(draw, names):
    """Returns what a monitor measures: an integer over these variables, sometimes a large one."""
    writer, large = Writer(draw, names), draw.choice((2**61, 2**62, 2**63 - 1, -(2**63)))
    value, other, wide = writer.of("int"), writer.of("int", 1), literal(shown_int(large), large)
    return writer.any_of(
        lambda: value,
        lambda: form("({} - {})", within(lambda m, n: m - n), value, other),
        lambda: form("({} - {})", within(lambda m, n: m - n), value, literal("1", 1)),
        lambda: form("({} - {})", within(lambda m, n: m - n), value, literal("2", 2)),
        lambda: form("({} div {})", divided(lambda m, n: m // n), other, value),
        lambda: form("({} * {})", within(lambda m, n: m * n), value, wide),
        lambda: form("({} - {})", within(lambda m, n: m - n), value, wide),
    )


# ---- random initial markings


def counted(colour, value, count):
    return times(literal(str(count), count), literal(colour.shown(value), value))


def marked(draw, colour):
    """Returns an initial marking of a place that is not timed, written as it is printed."""
    values = colour.values[:4] if colour.kind == "int" else colour.values
    tokens = collections.Counter(draw.choice(values) for _ in range(draw.randrange(7)))
    return sum_of([counted(colour, *it) for it in sorted(tokens.items())]) if tokens else EMPTY


def stamped(draw, colour):
    """Returns an initial marking of a timed place: tokens of one value or two, with stamps behind terms, sums, and stamps."""
    late = lambda made, often: later("@", made, stamp(draw)) if draw.random() < often else made
    values = draw.sample(colour.values[:4], draw.randrange(1, 3))
    terms = [late(counted(colour, draw.choice(values), draw.choice((1, 1, 1, 2))), 0.8) for _ in range(draw.randrange(7))]
    if len(terms) < 3:
        return late(sum_of(terms) if terms else EMPTY, 0.1)
    return sum_of([late(sum_of(terms[:2]), 0.2), *terms[2:]])


def stamp(draw):
    number = draw.randrange(7) if draw.random() < 0.995 else -1
    return literal(shown_int(number), number)
