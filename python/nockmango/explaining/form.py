"""Refusals of a document's form: a wrong kind of value, a key that may not stand there or is
missing, a name that is none."""
from __future__ import annotations

import collections
import json
import re
from typing import Any, Dict, Iterable, Iterator, List, Optional, Tuple

from .nearest import closest, nearest
from .pages import rows
from .pages import schema as net_schema
from .written import Written

KINDS = {
    "string": "a text, in double quotes,",
    "array": "a list, in [ ],",
    "object": "an object, in { },",
}
NAME = re.compile(r"[A-Za-z](?:[A-Za-z0-9_ -]{0,62}[A-Za-z0-9_-])?")
OF_FLAT_NAMES = re.compile(r"/(monitors/\d+|phases/\d+/edits/\d+)/(place|transition)")
LONGEST = 64  # characters of a name
ARCS = 64  # at a transition at most
ALIKE = 0.85  # how alike a key is to the one that it was probably to be
SHOWN = 60  # characters of a value that are shown
Schema = Dict[str, Any]


def form_facts(
    written: Written, key: str, detail: str
) -> Tuple[str, Optional[str], List[str]]:
    """Returns the row of a refusal of the form, the pointer, and what is to be said."""
    if key == "document 6 limit":
        said = [*too_many_arcs(written)] if detail == "arcs" else []
        return f"{key}, {detail}", None, said
    pointer = "/version" if key == "document 5 version" else detail
    parts = pointer.split("/")[1:]
    if key == "document 2 shape":
        variant, said = shape_facts(written, parts)
        return f"{key}, {variant}", pointer, said
    it = written.get(parts)
    said = [f"Here stands {shown(it)}."]
    if key == "document 3 bad_number":
        return key + (", the version" if pointer == "/version" else ", an n"), pointer, said
    if key == "document 4 bad_name":
        variant, further = name_facts(pointer, it)
        return f"{key}, {variant}", pointer, said + further
    return key, pointer, said


def shown(value: Any) -> str:
    return json.dumps(value)[:SHOWN]


# ---- shapes


def shape_facts(written: Written, parts: List[str]) -> Tuple[str, List[str]]:
    """Returns which of the three rows of `shape` it is, and what is to be said."""
    whole = schema = net_schema()
    for at, part in enumerate(parts, 1):
        schema = written_out(part_of(schema, part), whole["$defs"], written.get(parts[:at]))
    it, keys = written.get(parts), schema.get("properties", {})
    if not isinstance(it, dict) or not keys:
        return "another kind", [f"Here stands {shown(it)}, and {wanted_by(schema)} is wanted."]
    words = written.words(parts)
    further = sorted({*it} - {*keys})
    if further:
        cures = [f'"{key}" is no key of {words}. {key_cure(key, keys, it)}' for key in further]
        return "a further key", cures
    missing = [key for key in schema["required"] if key not in it]
    return "a missing key", [f'The key "{key}" is missing in {words}.' for key in missing]


def wanted_by(schema: Schema) -> str:
    """Returns what a schema wants, in words."""
    words = [f'"{it}"' for it in schema.get("enum", [schema.get("const")])]
    return KINDS.get(schema.get("type")) or (
        f"one of {', '.join(words)}" if words[1:] else words[0]
    )


def part_of(schema: Schema, part: str) -> Schema:
    """Returns the schema of a part of what a schema is of."""
    if not part.isdigit():
        return schema["properties"][part]
    first = schema.get("prefixItems", [])
    return first[int(part)] if int(part) < len(first) else schema["items"]


def written_out(schema: Schema, defs: Dict[str, Schema], it: Any) -> Schema:
    """Returns a schema with what it refers to, and with that of the kind of a value; of all kinds,
    where it is of none."""
    named = defs.get(schema.get("$ref", "").rpartition("/")[2], {})
    properties = {**named.get("properties", {}), **schema.get("properties", {})}
    schema = {**named, **schema, "properties": properties}
    forms = schema.get("oneOf", [])
    kinds = {form["properties"]["kind"]["const"]: form for form in forms}
    kind = str(it.get("kind")) if isinstance(it, dict) else ""
    for form in [kinds[kind]] if kind in kinds else forms:
        schema["properties"] = {**form["properties"], **schema["properties"]}
    if kind in kinds:
        schema["required"] = schema["required"] + kinds[kind]["required"]
    if forms:
        schema["properties"] |= {"kind": {"enum": [*kinds]}}
    return schema


def key_cure(key: str, keys: Iterable[str], it: Iterable[str]) -> str:
    """Returns what is written in place of a key that may not stand there: one of those that may, or
    what the page says of it."""
    left, name = {*keys} - {*it}, key.lower()
    table = rows("Keys of other tools")
    known = [cells for names, cells in table.items() if name in names.split()]
    fitting = [cells for cells in known if cells[1] in left]
    fitting = fitting or [cells for cells in known if " " in cells[1]]
    if not fitting or closest(key, left, ALIKE):
        return nearest(key, left)
    why, write = fitting[0]
    return f"{why[:1].upper()}{why[1:]}. Write {write}."


# ---- names and limits


def name_facts(pointer: str, it: Any) -> Tuple[str, List[str]]:
    """Returns which of the three rows of `bad_name` it is, and what is to be said."""
    if OF_FLAT_NAMES.fullmatch(pointer):
        return "no flattened name", []
    if NAME.fullmatch(str(it)):
        return "a name twice", []
    key, mended = pointer.rpartition("/")[2], mended_name(str(it))
    return "no name", [f'Write "{key}": "{mended}".'] if mended else []


def mended_name(name: str) -> str:
    """Returns a name that is like one that is none, or an empty text."""
    mended = re.sub(r"[^A-Za-z0-9_ -]+", " ", name.replace("'", "1")).strip()
    return mended if len(name) <= LONGEST and NAME.fullmatch(mended) else ""


def too_many_arcs(written: Written) -> Iterator[str]:
    """Yields at which transitions of the first such module there are too many arcs."""
    for module in written.document["modules"]:
        arcs = collections.Counter()
        for arc in module["arcs"]:
            arcs[arc["transition"]] += 1 + (arc["to"] == "both")
        found = [(name, number) for name, number in arcs.items() if number > ARCS]
        for name, number in found:
            yield f"There are {number} at {name} of module {module['name']}."
        if found:
            return
