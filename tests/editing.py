"""Phases and their edits, as plainly as can be, for tests/random_nets: what an edit makes of a net, which edits are refused, random
ones, and what is seen of them.
"""
import collections
import re

import scripts  # by which the package is found
from nockmango.model.faults import FAULTS, Fault
from writing import VARIABLES, Writer, first_unknown, later, literal, marked, stamp, stamped, variables_in

MOST_TOKENS = 60
SPOILT = {"": "syntax 2 end_of_text", "$": "lex 1 bad_byte 0", "7 7": "syntax 1 unexpected 2"}  # texts that no edit may have


class GuardEdit(collections.namedtuple("GuardEdit", "number text conjuncts")):
    """Another guard for the transition of a number. Conjuncts are missing where the text is spoilt."""

    def as_json(self):
        return {"kind": "guard", "transition": f"Top/t{self.number}", "text": self.text}

    def is_known(self, net):
        return self.number < len(net.transitions)

    def edited(self, net):
        """Returns the net with that guard. It brings its variables, and those of the guard before are gone."""
        before = net.transitions[self.number]
        names = variables_in([*self.conjuncts, *(text for *_, text in before.arcs), *(before.delay or ())[1:]])
        made = before._replace(names=names, guard=self.text, conjuncts=self.conjuncts)
        return net._replace(transitions=[*net.transitions[: self.number], made, *net.transitions[self.number + 1 :]])

    def wrong(self, net):
        """Returns why the text is refused, or None: bindability comes first, then the monitors in order."""
        made = self.edited(net).transitions[self.number]
        if name := made.first_unbindable():
            return f"type 5 not_bindable {name}"
        values = [it.text for it in net.monitors if it.text and it.at == self.number]
        gone = [name for text in values if (name := first_unknown(text, made.names))]
        return f"type 1 unknown {gone[0]}" if gone else None


class InitialEdit(collections.namedtuple("InitialEdit", "place text tokens")):
    """Another initial marking for a place. The tokens are missing where the text is spoilt."""

    def as_json(self):
        return {"kind": "initial", "place": f"Top/{self.place}", "text": self.text}

    def is_known(self, net):
        return self.place in net.names

    def edited(self, net):
        return net._replace(initial=net.initial | {self.place: self.tokens})

    def wrong(self, net):
        """Returns why the text is refused, or None."""
        try:
            self.tokens.meaning({}, net.places[self.place])
        except Fault as fault:
            return f"eval {FAULTS.index(str(fault)) + 1} {fault}"
        return None


class Phase(collections.namedtuple("Phase", "start edits", defaults=("initial", ()))):
    """A phase: `initial` or `here`, and its edits."""

    def as_json(self):
        return {"start": self.start} | ({"edits": [it.as_json() for it in self.edits]} if self.edits else {})

    def edited(self, net):
        """Returns the net with all edits made, one after another."""
        for it in self.edits:
            net = it.edited(net)
        return net


def wrong_text(edit, net):
    """Returns why the text of an edit is refused, or None."""
    return SPOILT[edit.text] if edit.text in SPOILT else edit.wrong(net)


def refused_edit(net):
    """Returns the line that refuses the first edit of a net that may not be, and its status, or None. Each is held against the net
    with those before it made.
    """
    for at, phase in enumerate(net.phases):
        for number, edit in enumerate(phase.edits):
            pointer = f"/phases/{at}/edits/{number}"
            if not edit.is_known(net):
                return f"error net edit 1 unknown_name {pointer}\n", 5
            if wrong := wrong_text(edit, net):
                return f"error inscription {pointer}/text {wrong}\n", 4
            net = edit.edited(net)
    return None


# ---- random phases


def random_guard(draw, net):
    """Returns another guard for a transition of a net: over variables of it, and some that may be none of it."""
    number = draw.randrange(len(net.transitions))
    transition = net.transitions[number]
    others = draw.sample([*VARIABLES], draw.randrange(3))
    writer = Writer(draw, [*transition.names, *others] or ["x"])
    text, conjuncts = writer.guard({name for _, to, it in transition.arcs if to != "place" for name in it.bound})
    return GuardEdit(number, text, conjuncts) if conjuncts else GuardEdit(number, "true", [literal("true", True)])


def random_initial(draw, net):
    """Returns another initial marking for a place of a net: written as it is printed, or computed."""
    place = draw.choice([*net.names])
    colour = net.places[place]
    if draw.random() < 0.5:
        tokens = (stamped if colour.timed else marked)(draw, colour)
    else:
        tokens = Writer(draw, []).multiset(colour.kind, False)
        tokens = later("@", tokens, stamp(draw)) if colour.timed and draw.random() < 0.5 else tokens
    return InitialEdit(place, tokens.text, tokens)


def is_small(edit, net, most):
    """Tells whether an edit leaves at most so many assignments to a transition, or puts few tokens on its place."""
    if isinstance(edit, GuardEdit):
        return edit.edited(net).transitions[edit.number].number_of_assignments() <= most
    return edit.wrong(net) or sum(term.count for term in edit.tokens.meaning({}, net.places[edit.place])) <= MOST_TOKENS


def random_edit(draw, net, most):
    """Returns an edit of a net. One that is refused is mostly made anew."""
    while True:
        edit = draw.choice((random_guard, random_initial))(draw, net)
        wrong = edit.wrong(net)
        if is_small(edit, net, most) and (wrong is None or draw.random() < (0.12 if "not_bindable" in wrong else 0.3)):
            break
    if draw.random() < 0.015:
        return edit._replace(number=len(net.transitions)) if isinstance(edit, GuardEdit) else edit._replace(place="E")
    return edit._replace(text=draw.choice([*SPOILT])) if draw.random() < 0.015 else edit


def random_phases(draw, net, most):
    """Returns up to five phases of a net, each with up to three edits, which leave at most so many assignments to a transition."""
    phases = []
    for number in range(draw.choice((0, 0, 1, 2, 2, 3, 3, 4, 5))):
        edits = []
        for _ in range(draw.choice((0, 0, 1, 1, 2, 3))):
            edits.append(random_edit(draw, net, most))
            net = edits[-1].edited(net) if edits[-1].is_known(net) and not wrong_text(edits[-1], net) else net
        phases.append(Phase("here" if number and draw.random() < 0.5 else "initial", tuple(edits)))
    return tuple(phases)


# ---- what is seen of phases: by what is printed, and by what the net has

A_RUN = r"(?:(?!run |probe ).*\n)*?"
SEEN = {
    "a later run from the initial marking": r"^run [1-9] initial",
    "a run from where the last one ended": r"^run [1-9] here",
    "a run from a later clock": r"^run [1-9] here [1-9]",
    "a run from here that goes on": r"^run [1-9] here .*\nocc",
    **{f"a run after one that ended: {it}": rf"^end {it}.*\n{A_RUN}run .*\nocc" for it in ("dead", "until", "stop")},
    "a run after one that ended: steps": rf"^end steps\n{A_RUN}run ",
    **{f"a later run that ends: {it}": rf"^run [1-9].*\nocc .*\n{A_RUN}end {it}" for it in ("dead", "steps", "until", "stop")},
    "a later run that ends: fault": rf"^run [1-9].*\n{A_RUN}end fault",
    "a run that no step is left for": r"^run [1-9].*\nschedule\nend steps\n",
    "an edit of no place or transition": r"^error net edit 1 unknown_name /phases/\d/edits/\d$",
    "an edit of a text that is none": r"^error inscription /phases/\d/edits/\d/text (lex|syntax) ",
    "an edit by which a variable is not bindable": r"^error inscription /phases/\d/edits/\d/text type 5 not_bindable .$",
    "an edit that takes a monitor's variable away": r"^error inscription /phases/\d/edits/\d/text type 1 unknown .$",
    "an edit of a marking without a value": r"^error inscription /phases/\d/edits/\d/text eval ",
    "an edit that is refused in a later phase": r"^error .* /phases/[1-9]/",
    "an edit that is refused after one that is not": r"^error .* /phases/\d/edits/[1-9]",
}


def seen_of(net, printed):
    """Yields what is seen of phases in a case: of a net, and of what has to be printed."""
    yield from (word for word, form in SEEN.items() if re.search(form, printed, re.M))
    runs = re.findall(r"^run .*\n(.*)", printed, re.M)
    if runs and len(runs) < len(net.phases):
        yield "phases behind a fault"
    if len(runs) == 5:
        yield "five runs"
    for at, (phase, first) in enumerate(zip(net.phases, runs)):
        before, net = net, phase.edited(net)
        occurs = first.startswith("occ ")
        if any(isinstance(it, InitialEdit) for it in phase.edits):
            yield f"another initial marking, and a {'later ' if at else 'first '}run {'from here' if phase.start == 'here' else 'from it'}"
        numbers = [it.number for it in phase.edits if isinstance(it, GuardEdit)]
        if numbers:
            yield f"another guard in a {'later' if at else 'first'} run"
        if len(numbers) > len({*numbers}):
            yield "two edits of one guard in a phase"
        drawn = re.match(r"occ 0 @\d+ Top/t(\d+) ", first)
        if drawn and before.transitions[int(drawn[1])].names != net.transitions[int(drawn[1])].names:
            yield "an edit that changes the variables of a binding"
        if occurs and at and not phase.edits and phase.start == "initial":
            yield "a run again, with the net as it was"


WANTED = [
    *SEEN,
    "phases behind a fault",
    "five runs",
    *(f"another initial marking, and a {it}" for it in ("first run from it", "later run from it", "later run from here")),
    "another guard in a first run",
    "another guard in a later run",
    "two edits of one guard in a phase",
    "an edit that changes the variables of a binding",
    "a run again, with the net as it was",
]
