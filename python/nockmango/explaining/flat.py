"""The flat net of a document that keeps the rules of modules: where the parts of each flat name
stand, and which places are one."""
from __future__ import annotations

from typing import Any, Dict, List

from ..model.unfolding import compound, instances

Part = Dict[str, Any]


class Flat:
    """The flat net of a document: its instances, by their paths, and its compound places, each as
    the flat names of its members."""

    def __init__(self, document: Part):
        self.document = document
        self.instances = [*instances(document, document["top"], document["top"])]
        self.modules = dict(self.instances)
        groups = compound(document, self.instances)
        self.compounds = [["/".join(member) for member in group] for group in groups]
        self.compound_of = {name: group for group in self.compounds for name in group}

    def names(self, kind: str) -> List[str]:
        """Returns the flat names of all `places` of instances, or of all their `transitions`, in
        order."""
        return [f"{path}/{it['name']}" for path, module in self.instances for it in module[kind]]

    def compound_name(self, name: str) -> str:
        """Returns the one name of the compound place that a place belongs to: that of its first
        member."""
        return self.compound_of[name][0]

    def part(self, name: str, kind: str) -> Part:
        """Returns the place or the transition of a flat name, as it stands in its module; the kind
        is `places` or `transitions`."""
        path, _, last = name.rpartition("/")
        return next(it for it in self.modules[path][kind] if it["name"] == last)

    def pointer(self, name: str, kind: str) -> str:
        """Returns the pointer of the place or the transition of a flat name."""
        module = self.modules[name.rpartition("/")[0]]
        number = self.document["modules"].index(module)
        at = module[kind].index(self.part(name, kind))
        return f"/modules/{number}/{kind}/{at}"

    def markings(self, name: str) -> Dict[str, str]:
        """Returns the written initial markings of the compound place of a name: pointer and text,
        each once."""
        found = {}
        for member in self.compound_of[name]:
            place = self.part(member, "places")
            if "initial" in place:
                found[f"{self.pointer(member, 'places')}/initial"] = place["initial"]
        return found
