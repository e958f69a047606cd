"""What is to be said of a refused text: which of its characters are meant, what stands there, and
what is wanted."""
from __future__ import annotations

import re
from typing import Iterator, List, Tuple

from .declared import COLOUR_SET, CONSTANT, CONSTRUCTOR, FUNCTION, PREDECLARED, VALUE, VARIABLE
from .document import (
    ARCS,
    BOTH,
    COLOUR,
    DECLARATION,
    DELAY,
    GUARD,
    INITIAL,
    INPUT,
    MONITOR,
    OUTPUT,
    Document,
)
from .foreign import form_facts
from .mismatches import mismatch_facts
from .nearest import closest, nearest
from .tokens import (
    AFTER_OPERANDS,
    BEFORE_OPERANDS,
    BODIES,
    DECLARATIONS,
    TOKEN,
    VALUES,
    is_name,
    tokens_of,
)

LIKE = 0.7  # how alike a name and a reserved word are of which one is offered for the other
CLOSING = {"(": ")", "[": "]", "let": "end"}
AS_FUNCTION, AS_VALUE, AS_COLOUR_SET = "a function", "a value", "a colour set"
SIMPLE = ("unit", "bool", "int", "string")  # bodies of one word
IN_OPERATIONS = (
    "On an input arc it is found where it stands by itself or in a pattern, and not in an"
    " operation, a condition or a call."
)


def row_of(net: Document, parts: List[str], key: str, detail: str) -> str:
    """Returns the row of the refusal of a text."""
    if key == "type 8 too_many":
        return f"{key}, {detail}"
    if key == "type 1 unknown" and takes_away(net, parts, detail):
        return f"{key}, of an edit"
    if key == "type 7 time_not_allowed":
        return key + where_no_time(net, parts, int(detail))
    return key


def text_facts(
    net: Document, parts: List[str], key: str, detail: str
) -> Tuple[List[int], List[str]]:
    """Returns which characters of a text a refusal means, and what is to be said."""
    text = net.get(parts)
    if key == "type 5 not_bindable" and parts[0] != "phases":
        return [], [*variable_facts(net, parts, detail)]
    if key == "lex 4 too_long":
        return [len(text)], [f"It has {len(text.encode()):,} bytes."]
    if key == "syntax 2 end_of_text":
        return [len(text)], [*end_facts(net, parts, text)]
    if detail.isdigit():
        at = int(detail)  # in bytes, which are characters before the first one past ASCII
        facts = tree_facts
        if key.startswith("type"):
            facts = mismatch_facts if key == "type 3 mismatch" else time_facts
        return [at], [*facts(net, parts, text, at)]
    found = TOKEN.finditer(text) if isinstance(text, str) else []
    ats = [it.start() for it in found if it[0] == detail]
    if key == "type 1 unknown":
        said = unknown_facts(net, parts, text, ats, detail)
    else:
        said = net.declared.facts(detail)
    return ats, said + [*edit_facts(net, parts, key, text, detail)]


# ---- tokens and trees


def tree_facts(net: Document, parts: List[str], text: str, at: int) -> List[str]:
    """Returns what is to be said where a text is refused at a character by its tokens or as a
    tree."""
    site = net.site(parts)
    said = form_facts(text, [at], site, net.declared, general=False)
    said = said or word_facts(net, text, at, site)
    before = "".join(tokens_of(text[:at])[-1:])
    return said or form_facts(text, [at], site, net.declared) + net.declared.facts(before)


def word_facts(net: Document, text: str, at: int, site: str) -> List[str]:
    """Returns which reserved word or function was probably meant by the name at a character, or by
    the one before it."""
    tokens = tokens_of(text[:at])
    here, before = "".join(tokens_of(text[at:])[:1]), "".join(tokens[-1:])
    if site == DECLARATION and not tokens:
        meant = closest(here, DECLARATIONS)
        said = ["A declaration begins with colset, var, val or fun."]
        return said + ([f"Did you mean {meant}?"] if meant else [])
    if site == DECLARATION and tokens[0] == "colset":
        words = ((here, ("with", "timed")), (before, BODIES))
    else:
        functions = [*PREDECLARED, *net.declared.of(FUNCTION, CONSTRUCTOR)]
        words = ((here, AFTER_OPERANDS), (before, [*BEFORE_OPERANDS, *functions]))
    for name, meanings in words:
        is_known = name in PREDECLARED or net.declared.find(name)
        meant = closest(name, meanings, LIKE) if is_name(name) and not is_known else None
        if meant:
            return [f"{name} is a name here. Did you mean {meant}?"]
    return []


def end_facts(net: Document, parts: List[str], text: str) -> Iterator[str]:
    """Yields what a text lacks at its end."""
    site, tokens, open_ones = net.site(parts), tokens_of(text), []
    for token in tokens:
        if token in CLOSING:
            open_ones.append(token)
        elif open_ones and token == CLOSING[open_ones[-1]]:
            open_ones.pop()
    yield from form_facts(text, [len(text)], site, net.declared)
    if open_ones:
        yield f"{open_ones[-1]} is not closed: {CLOSING[open_ones[-1]]} is missing."
    if site == DECLARATION and tokens[-1:] != [";"]:
        yield "A declaration ends with ;."
    if not tokens and site in (*ARCS, INITIAL):
        yield "No token is written empty; or the key is left out."


# ---- time


def where_no_time(net: Document, parts: List[str], at: int) -> str:
    """Returns which row of `time_not_allowed` it is, by the place of the text, and by the sign or
    the word."""
    site, place = net.site(parts), net.place_at(parts)
    if site in (GUARD, MONITOR):
        return {GUARD: ", in a guard", MONITOR: ", in a monitor"}[site]
    if TOKEN.match(net.get(parts), at)[0] == "time":
        return ", on an input arc" if site in (INPUT, BOTH) else ""
    if site in (INITIAL, OUTPUT) and not net.declared.is_timed(place["colour"]):
        return ", at an untimed place"
    return ", another sign" if place else ""


def time_facts(net: Document, parts: List[str], text: str, at: int) -> Iterator[str]:
    """Yields what is to be said where time stands that may not."""
    yield from form_facts(text, [at], net.site(parts), net.declared, general=False)
    if place := net.place_at(parts):
        name, colour = place["name"], place["colour"]
        yield f"The colour set of place {name} is {colour}: {net.declared.text(colour)}"


# ---- names


def role_at(text: str, at: int, site: str) -> str:
    """Returns what the name at a character of a text has to be, by what stands around it."""
    tokens, after = tokens_of(text[:at]), tokens_of(text[at:])[1:2]
    begins = "".join(tokens[:1])
    is_before_body = begins in ("colset", "var") or begins == "fun" and "=" not in tokens
    if site == COLOUR or site == DECLARATION and is_before_body:
        return AS_COLOUR_SET
    return AS_FUNCTION if after == ["("] else AS_VALUE


def locals_in(tokens: List[str]) -> List[str]:
    """Returns the names that a text itself binds: parameters, and those of let and foldl."""
    pairs = [*zip(tokens, tokens[1:])]
    found = [name for name, after in pairs if tokens[0] == "fun" and after == ":"]
    found += [name for before, name in pairs[1:] if before == "val"]
    for at, token in enumerate(tokens):
        found += tokens[at + 1 : at + 4 : 2] if token == "foldl" else []
    return [it for it in found if is_name(it)]


def candidates(
    net: Document, parts: List[str], text: str, role: str
) -> Tuple[List[str], List[str]]:
    """Returns the names that may stand where another one is unknown, by kind: those that the
    document has, and those of the language."""
    site = net.site(parts)
    is_closed = site in (DECLARATION, INITIAL)
    kinds = {
        AS_COLOUR_SET: (COLOUR_SET,),
        AS_FUNCTION: (FUNCTION, CONSTRUCTOR),
        AS_VALUE: (CONSTANT, VALUE) if is_closed else (VARIABLE, CONSTANT, VALUE),
    }[role]
    own = own_number(net, parts)
    names = [it.name for it in net.declared.names if it.kind in kinds and it.number < own]
    if role == AS_COLOUR_SET:
        return names, [*SIMPLE] if tokens_of(text)[:1] == ["colset"] else []
    if role == AS_FUNCTION:
        return [*names, *PREDECLARED], ["not"]
    if site == MONITOR:
        variables = net.variables_of(net.get(parts[:2])["transition"])
        others = {*net.declared.of(VARIABLE)} - {*variables}
        names = [it for it in names if it not in others]
    further = [*VALUES]
    further += ["empty"] if site in (*ARCS, INITIAL) else []
    further += ["time"] if site in (OUTPUT, DELAY) else []
    return [*names, *locals_in(tokens_of(text))], further


def own_number(net: Document, parts: List[str]) -> int:
    """Returns the number of the declaration that a text is; of others one past the last."""
    is_declaration = parts[0] == "declarations"
    return int(parts[1]) if is_declaration else len(net.document["declarations"])


def unknown_facts(
    net: Document, parts: List[str], text: str, ats: List[int], name: str
) -> List[str]:
    """Returns what is to be said of a name that is unknown where it stands: what it is, or which
    one was probably meant."""
    role = role_at(text, ats[0], net.site(parts)) if ats else AS_VALUE
    if net.declared.find(name) and name not in PREDECLARED:
        said = declared_facts(net, parts, text, ats, name, role)
    else:
        said = net.declared.facts(name)
        said = said or undeclared_facts(net, parts, text, ats, name, role)
    if parts[0] == "monitors":
        transition = net.get(parts[:2])["transition"]
        variables = ", ".join(net.variables_of(transition)) or "no variable"
        said = [*said, f"The transition {transition} has {variables}."]
    return said


def declared_facts(
    net: Document, parts: List[str], text: str, ats: List[int], name: str, role: str
) -> List[str]:
    """Returns why a name that is declared is unknown where it stands."""
    found, own = net.declared.find(name), own_number(net, parts)
    said = net.declared.facts(name)
    if found.number > own:
        numbers = f"That is declaration {found.number + 1}, and this is declaration {own + 1}"
        return [*said, f"{numbers}: names are known in later declarations alone."]
    if found.number == own:
        return form_facts(text, ats, DECLARATION, net.declared, general=False) or said
    if found.kind == COLOUR_SET and role != AS_COLOUR_SET:
        return [*said, f"It is a colour set, and {role} is wanted here."]
    return said


def undeclared_facts(
    net: Document, parts: List[str], text: str, ats: List[int], name: str, role: str
) -> List[str]:
    """Returns which name was probably meant by one that is not declared, or what is written in
    place of a form of another language."""
    known, further = candidates(net, parts, text, role)
    meant = [nearest(name, known, further)]
    if any(it.lower() == name.lower() for it in [*known, *further]):
        return meant
    return form_facts(text, ats, net.site(parts), net.declared, general=False) or meant


# ---- variables, and edits of guards


def variable_facts(net: Document, parts: List[str], name: str) -> Iterator[str]:
    """Yields where a variable of a transition stands, and why no way is found there to its
    values."""
    module, transition = net.get(parts[:2]), net.get(parts)
    for it in net.texts_of(parts):
        if name in tokens_of(net.get(it)):
            yield f"It stands in {net.words(it)}: {net.get(it)}"
    arcs = [(at, module["arcs"][at]) for at in net.arcs_at(module, transition["name"])]
    inputs = [(at, arc) for at, arc in arcs if arc["to"] != "place"]
    if any(name in tokens_of(arc.get("expr", "")) for _, arc in inputs):
        yield IN_OPERATIONS
    for at, arc in inputs:
        if "expr" not in arc:
            told = net.told("/".join(["", *parts[:2], "arcs", str(at)]))
            yield f"There is no inscription on {told}."
    yield from net.declared.facts(name)
    if colour := net.declared.colour_of(name):
        yield f"{colour} has more than 256 values, so they are not all tried."


def edit_facts(
    net: Document, parts: List[str], key: str, text: str, name: str
) -> Iterator[str]:
    """Yields what is to be said of an edit of a guard by which the variables of its transition are
    others."""
    if parts[0] != "phases" or net.site(parts) != GUARD or not re.match("type [158] ", key):
        return
    transition = net.get(parts[:-1])["transition"]
    if key == "type 1 unknown" and takes_away(net, parts, name):
        for it in net.document["monitors"]:
            is_value = it["kind"] == "value" and it["transition"] == transition
            if is_value and name in tokens_of(it["expr"]):
                yield f"The monitor {it['name']} measures {it['expr']}."
    variables = ", ".join(net.variables_of(transition, text)) or "no variable"
    yield f"After the edit the transition {transition} has {variables}."


def takes_away(net: Document, parts: List[str], name: str) -> bool:
    """Returns whether an edit is refused since a monitor measures the variable of that name, which
    is then gone."""
    is_variable = parts[0] == "phases" and net.declared.find(name, VARIABLE)
    return bool(is_variable) and not re.search(rf"\b{name}\s*\(", net.get(parts))
