"""A net document with all that explanations ask of it: as it is written, what it declares, and the
flat net that it is."""
from __future__ import annotations

import functools
import re
from typing import Any, Dict, List, Optional, Tuple

from .declared import VARIABLE, Declared
from .flat import Flat
from .tokens import tokens_of
from .written import Written

# Where a text of the language stands.
DECLARATION, COLOUR, INITIAL = "declaration", "colour", "initial"
GUARD, DELAY, MONITOR = "guard", "delay", "monitor"
INPUT, OUTPUT, BOTH = "input", "output", "both"
ARCS = (INPUT, OUTPUT, BOTH)


class Document(Written):
    """A net document. What it declares, its arcs and its flat net are asked for only where its form
    is as it should be."""

    @functools.cached_property
    def declared(self) -> Declared:
        return Declared(self.document["declarations"])

    @functools.cached_property
    def flat(self) -> Flat:
        return Flat(self.document)

    @functools.cached_property
    def arc_numbers(self) -> Dict[Tuple[str, str], List[int]]:
        """The numbers of the arcs at each transition, by the names of its module and of itself."""
        numbers: Dict[Tuple[str, str], List[int]] = {}
        for module in self.document["modules"]:
            for at, arc in enumerate(module["arcs"]):
                numbers.setdefault((module["name"], arc["transition"]), []).append(at)
        return numbers

    def arcs_at(self, module: Dict[str, Any], transition: str) -> List[int]:
        """Returns the numbers of the arcs of a module that stand at a transition of it."""
        return self.arc_numbers.get((module["name"], transition), [])

    # ---- texts

    def site(self, parts: List[str]) -> str:
        """Returns where the text of a pointer stands, by what it is."""
        if parts[0] == "declarations":
            return DECLARATION
        if parts[0] == "monitors":
            return MONITOR
        if parts[0] == "phases":
            return self.get(parts[:-1])["kind"]
        if parts[-1] == "expr":
            to = self.get(parts[:-1])["to"]
            return {"transition": INPUT, "place": OUTPUT}.get(to, BOTH)
        return parts[-1]

    def place_at(self, parts: List[str]) -> Optional[Dict[str, str]]:
        """Returns the name and the colour set of the place that an inscription or an initial
        marking belongs to."""
        if self.site(parts) not in (*ARCS, INITIAL):
            return None
        owner = self.get(parts[:-1])
        if parts[0] == "phases":
            place = self.flat.part(owner["place"], "places")
            return {"name": owner["place"], "colour": place["colour"]}
        name = owner.get("place", owner.get("name"))
        return next(it for it in self.get(parts[:2])["places"] if it["name"] == name)

    def texts_of(self, parts: List[str]) -> List[List[str]]:
        """Returns the pointers of the guard, the delay and the inscriptions of the transition of a
        pointer, where they are written."""
        module, transition = self.get(parts[:2]), self.get(parts)
        texts = [[*parts, key] for key in ("guard", "delay") if key in transition]
        for at in self.arcs_at(module, transition["name"]):
            if "expr" in module["arcs"][at]:
                texts.append([*parts[:2], "arcs", str(at), "expr"])
        return texts

    def variables_of(self, name: str, guard: Optional[str] = None) -> List[str]:
        """Returns the variables of the transition of a flat name, as they are declared; with that
        guard, where one is given."""
        parts = self.flat.pointer(name, "transitions").split("/")[1:]
        pointers = [it for it in self.texts_of(parts) if guard is None or it[-1] != "guard"]
        tokens = tokens_of(" ".join([guard or "", *map(self.get, pointers)]))
        return [it for it in self.declared.of(VARIABLE) if it in tokens]

    def may_fault(self, pointer: str, form: str) -> bool:
        """Returns whether a text, with the functions that it calls, or the colour set of its place
        has a form."""
        parts = pointer.split("/")[1:]
        if form != r"\.\.":
            return bool(re.search(form, self.declared.unfolded(self.get(parts), "val|fun")))
        place = self.place_at(parts)
        return bool(place) and ".." in self.declared.unfolded(place["colour"], "colset")
