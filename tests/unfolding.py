"""The flat net of a document of several modules, for tests/random_hierarchies: the document of one module that it is, and what has to be
printed of it. Its instances and its compound places are those of nockmango.model.unfolding.
"""
import re

import scripts  # by which the package is found
from measures import Made
from nockmango.model.unfolding import compound, instances, named

# What is declared: of each colour set the declaration, what its values are, and whether it is timed. Two of them agree where
# the last two are equal.
COLOURS = {
    "INT": ("int", "int", False),
    "TIMED": ("int timed", "int", True),
    "NUMBER": ("INT", "int", False),
    "PLAIN": ("TIMED", "int", False),
    "LATE": ("PLAIN timed", "int", True),
    "BIT": ("int with 0..1", "0..1", False),
    "TRIT": ("int with 0..2", "0..2", False),
    "THREE": ("int with 0..2", "0..2", False),
    "TIMED_THREE": ("THREE timed", "0..2", True),
    "BOOL": ("bool", "bool", False),
    "FLAG": ("BOOL", "bool", False),
}
VALUES = {"int": (0, 1, 2, 3), "0..1": (0, 1), "0..2": (0, 1, 2), "bool": (False, True)}
DECLARATIONS = [f"colset {name} = {body};" for name, (body, *_) in COLOURS.items()]
DECLARATIONS += ["var x, y : INT;", "var u : THREE;", "var b, c : BOOL;", "var z : NUMBER;"]


class Flat:
    """The flat net of a document that keeps the rules of modules. `means` has for each initial marking what it means."""

    def __init__(self, doc, means):
        found = [*instances(doc, doc["top"], doc["top"])]
        self.modules, self.means, self.monitors, self.phases = dict(found), means, doc.get("monitors", []), doc.get("phases", [])
        self.groups = compound(doc, found)
        self.names = ["/".join(group[0]) for group in self.groups]
        self.number_of = {place: number for number, group in enumerate(self.groups) for place in group}
        self.transitions = [(path, it, module) for path, module in found for it in module["transitions"]]
        self.written = [[it["initial"] for it in map(self.place, group) if "initial" in it] for group in self.groups]

    def place(self, member):
        path, name = member
        return named(self.modules[path]["places"], name)

    def refusal(self):
        """Returns the refusal of an initial marking, or None: all that fault come first."""
        for name, texts in zip(self.names, self.written):
            for text in texts:
                if isinstance(self.means[text], str):
                    return f"error net flat 4 init {name} {self.means[text]}"
        for name, texts in zip(self.names, self.written):
            if any(self.means[text] != self.means[texts[0]] for text in texts):
                return f"error net flat 5 initial_differs {name}"
        return None

    def tokens(self, number):
        """Returns the initial marking of a compound place, as the report prints it. It can be read too."""
        timed = COLOURS[self.place(self.groups[number][0])["colour"]][2]
        counts = self.means[self.written[number][0]] if self.written[number] else {}
        stamps = lambda stamp: f"@{stamp}" if timed else ""
        terms = [f"{count}`{str(value).lower()}{stamps(stamp)}" for (value, stamp), count in sorted(counts.items())]
        return " ++ ".join(terms) or "empty"

    def arcs(self):
        """Returns the arcs: the number of the transition, and of the place, and the arc of the module."""
        simple = [(t, path, it["name"], module) for t, (path, it, module) in enumerate(self.transitions)]
        return [
            (t, self.number_of[path, arc["place"]], arc)
            for t, path, name, module in simple
            for arc in module["arcs"]
            if arc["transition"] == name
        ]

    def document(self):
        """Returns the net as a document of one module, whose places and transitions are numbered."""
        places = [
            {"name": f"p{number}", "colour": self.place(group[0])["colour"], "initial": self.tokens(number)}
            for number, group in enumerate(self.groups)
        ]
        transitions = [it | {"name": f"t{number}"} for number, (_, it, _) in enumerate(self.transitions)]
        arcs = [arc | {"place": f"p{place}", "transition": f"t{t}"} for t, place, arc in self.arcs()]
        module = {"name": "Flat", "places": places, "transitions": transitions, "arcs": arcs}
        document = {"version": 1, "declarations": DECLARATIONS, "top": "Flat", "modules": [module]}
        monitors = [self.numbered(it) for it in self.monitors]
        phases = [phase | {"edits": [self.numbered(it) for it in phase["edits"]]} for phase in self.phases]
        return document | {"monitors": monitors, "phases": phases}

    def numbered(self, it):
        """Returns a monitor or an edit with the number of its place or its transition."""
        if "place" in it:
            return it | {"place": f"Flat/p{self.names.index(it['place'])}"}
        names = [f"{path}/{one['name']}" for path, one, _ in self.transitions]
        return it | {"transition": f"Flat/t{names.index(it['transition'])}"}

    def still(self):
        """Returns the numbers of the places to or from which no arc leads."""
        moving = {place for _, place, _ in self.arcs()}
        return [number for number in range(len(self.names)) if number not in moving]

    def wrong_monitors(self, report):
        """Returns what is wrong with the lines of the monitors in a report with its trace, or nothing."""
        still = [self.names[it] for it in self.still()]
        return Made(report).wrong(self.monitors, still) if self.monitors and "\nschedule" in report else ""

    def translated(self, report):
        """Returns the report of that document, with the names of this net."""
        names = {f"p{number}": name for number, name in enumerate(self.names)}
        names |= {f"t{number}": f"{path}/{it['name']}" for number, (path, it, _) in enumerate(self.transitions)}
        return re.sub(r"\bFlat/([pt][0-9]+)\b", lambda found: names[found[1]], report)

    def wrong_places(self, report):
        """Returns what is wrong with the lines of the places in a report, or nothing."""
        lines = re.findall(r"^place (.*?) (empty|[0-9]+`.*)$", report, re.M)
        if [name for name, _ in lines] != self.names:
            return f"wanted the places {self.names}"
        return "".join(f"wanted {self.names[it]} {self.tokens(it)}\n" for it in self.still() if lines[it][1] != self.tokens(it))
