"""What monitors measure: of the occurrences of a run, for tests/random_nets and tests/random_schedules, by nockmango.model.measures; and of
what a report says of its run, for tests/random_hierarchies. Nothing is added up while a run is made.
"""
import collections
import re

import scripts  # by which the package is found
from nockmango.markings import size
from nockmango.model import measures
from nockmango.reports import read_report, show_number

# ---- of the occurrences of a run, listed


def sizes_of(marking):
    """Returns how many tokens each place has."""
    sizes = collections.Counter()
    for (place, _), stamps in marking.items():
        sizes[place] += len(stamps)
    return sizes


class Monitor(measures.Monitor):
    """A monitor of a net whose places have names, and whose transitions have numbers."""

    def as_json(self):
        """Returns the monitor as it stands in a document."""
        at = {"place": f"Top/{self.at}"} if self.looks_at_a_place() else {"transition": f"Top/t{self.at}"}
        further = {"op": self.op, "n": self.n, "expr": self.text and self.text.text}
        return {"name": self.name, "kind": self.kind, **at, **{key: it for key, it in further.items() if it is not None}}


# ---- of a report: what it says of the occurrences, the marking and the clock. The texts of values are over a variable n, each with what it
# means, which is None where it has a fault

VALUED = {
    "n": lambda n: n,
    "n + 1": lambda n: n + 1,
    "2 - n * 3": lambda n: 2 - n * 3,
    "if n > 1 then ~n else n": lambda n: -n if n > 1 else n,
    "6 div n": lambda n: 6 // n if n else None,
    "hd(tl([n])) + n": lambda n: None,
    "n * 4611686018427387904": lambda n: n * 2**62 if n < 2 else None,
    "9223372036854775807": lambda n: 2**63 - 1,
}
NUMBERS = ("x", "y", "u")


def text_of(monitor):
    """Returns the variable in the text of a value, or None, and the text with n in its place."""
    name = next((it for it in NUMBERS if re.search(rf"\b{it}\b", monitor["expr"])), None)
    return name, re.sub(rf"\b{name}\b", "n", monitor["expr"]) if name else monitor["expr"]


def variables_of(module, transition):
    """Returns the variables of a transition."""
    texts = [transition.get("guard", ""), transition.get("delay", "")]
    texts += [arc.get("expr", "") for arc in module["arcs"] if arc["transition"] == transition["name"]]
    return {name for text in texts for name in re.findall(r"\b[xyubc]\b", text)}


class Made:
    """What a report says that its run made: its occurrences, the number of tokens on each place that are left, and the clock."""

    def __init__(self, report):
        self.run = read_report(report).last
        self.sizes = {name: size(marking) for name, marking in self.run.places.items()}

    def of(self, monitor):
        """Returns the bindings of the occurrences of its transition."""
        return [it.binding for it in self.run.of(monitor["transition"])]

    def stopping(self, monitors):
        """Returns the end by the first monitor that stops the run after the last occurrence, or None."""
        for it in monitors if self.run.occurrences else ():
            last = self.run.occurrences[-1].transition
            if it["kind"] == "stop_count" and last == it["transition"] and len(self.of(it)) == it["n"]:
                return f"stop {it['name']}"
            if it["kind"] == "stop_size":
                many = self.sizes[it["place"]]
                if many >= it["n"] if it["op"] == "at_least" else many <= it["n"]:
                    return f"stop {it['name']}"
        return None

    def values(self, monitor):
        """Returns the numbers of a value's line."""
        name, text = text_of(monitor)
        found = [VALUED[text](it[name] if name else 0) for it in self.of(monitor)]
        values = [it for it in found if it is not None]
        return [len(values), sum(values), min(values, default=None), max(values, default=None), len(found) - len(values)]

    def wanted(self, monitor, still):
        """Returns the form of a monitor's line: of a size the last number, and all of them where no arc leads to the place."""
        kind, many = monitor["kind"], self.sizes.get(monitor.get("place"))
        if kind == "size" and monitor["place"] not in still:
            return rf"size \d+ \d+ {many} \d+ {re.escape(monitor['name'])}"
        if "place" in monitor:
            numbers = [many, many, many, many * self.run.clock] if kind == "size" else [many]
        else:
            numbers = self.values(monitor) if kind == "value" else [len(self.of(monitor))]
        return re.escape(" ".join([kind, *map(show_number, numbers), monitor["name"]]))

    def wrong(self, monitors, still):
        """Returns what is wrong with the end and the lines of the monitors, or nothing."""
        told = str(self.run.end)
        end = self.stopping(monitors) or ("no stop" if told.startswith("stop ") else told)
        forms, lines = [self.wanted(it, still) for it in monitors], [f"{it} {name}" for name, it in self.run.monitors.items()]
        fits = len(forms) == len(lines) and all(map(re.fullmatch, forms, lines))
        return "" if fits and end == told else f"wanted the end {end}, and the monitors {forms}"
