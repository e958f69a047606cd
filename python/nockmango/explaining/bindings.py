"""How the values of a transition's variables are found: by a token, by an equation of the guard, or
since all values are tried."""
from __future__ import annotations

from typing import Dict, Iterable, List, Set, Tuple

from .declared import CONSTANT, CONSTRUCTOR, VARIABLE, Declared
from .document import Document
from .tokens import NAME, VALUES, depths_of, is_name, parted, tokens_of, unwrapped

BY_TOKEN, BY_EQUATION, TRIED = "token", "equation", "tried"
OF_PATTERNS = ("(", ")", "[", "]", ",", "::")
WIDE = ("if", "case", "foldl", "let", "orelse")  # at the root of a text that is one conjunct


def variables_in(declared: Declared, tokens: Iterable[str]) -> Set[str]:
    return {it for it in tokens if NAME.fullmatch(it) and declared.find(it, VARIABLE)}


# ---- what an input arc binds


def is_pattern(declared: Declared, tokens: List[str]) -> bool:
    """Returns whether some tokens are made of variables, literals, constants, constructors, tuples,
    lists and ::."""
    for token, after in zip(tokens, [*tokens[1:], ""]):
        if is_name(token):
            kinds = (CONSTRUCTOR,) if after == "(" else (VARIABLE, CONSTANT)
            if not declared.find(token, *kinds):
                return False
        elif token not in OF_PATTERNS + VALUES and not is_literal(token):
            return False
    return bool(tokens)


def is_literal(token: str) -> bool:
    return token[0] == '"' or token.lstrip("~").isdigit()


def terms(text: str) -> List[Tuple[List[str], List[str]]]:
    """Returns the terms of an inscription's root sum, each as the tokens of its number, which may
    be none, and of its value."""
    found = []
    for part in parted(unwrapped(tokens_of(text)), ("++",)):
        parts = parted(unwrapped(part), ("`",))
        found.append((parts[0], parts[1]) if len(parts) == 2 else ([], unwrapped(part)))
    return found


def bound_by(declared: Declared, text: str) -> Set[str]:
    """Returns the variables that an input arc of an inscription binds: those of its binding
    terms."""
    found: Set[str] = set()
    for number, value in terms(text):
        counts = not number or len(number) == 1 and number[0].isdigit() and int(number[0]) > 0
        if counts and is_pattern(declared, value):
            found |= variables_in(declared, value)
    return found


# ---- what a guard finds


def conjuncts(text: str) -> List[List[str]]:
    """Returns the conjuncts of a guard, each as its tokens."""
    tokens = tokens_of(text)
    parts = [tokens]
    if tokens[:1] == ["["] and tokens[-1] == "]" and 0 not in depths_of(tokens)[1:-1]:
        parts = parted(tokens[1:-1], (",",))
    return [it for part in parts for it in split(part)]


def split(tokens: List[str]) -> List[List[str]]:
    """Returns the parts of a truth value between each `andalso` at its root."""
    tokens = unwrapped(tokens)
    if any(not depth and token in WIDE for token, depth in zip(tokens, depths_of(tokens))):
        return [tokens]
    parts = parted(tokens, ("andalso",))
    return [it for part in parts for it in split(part)] if len(parts) > 1 else parts


def equations(declared: Declared, guard: str) -> List[Tuple[str, Set[str]]]:
    """Returns the equations of a guard: a variable, and the variables of the other side. One
    between two variables counts both ways."""
    found = []
    for conjunct in conjuncts(guard):
        sides = [unwrapped(it) for it in parted(conjunct, ("=",))]
        if len(sides) == 2:
            for side, other in (sides, sides[::-1]):
                if len(side) == 1 and variables_in(declared, side):
                    found.append((side[0], variables_in(declared, other)))
    return found


# ---- all of it


def how_found(net: Document, parts: List[str]) -> Dict[str, str]:
    """Returns how the variables of the transition of a pointer are found, in the order of their
    declarations; those that are not found are left out."""
    declared, module, transition = net.declared, net.get(parts[:2]), net.get(parts)
    tokens = tokens_of(" ".join(net.get(it) for it in net.texts_of(parts)))
    variables = [it for it in declared.of(VARIABLE) if it in tokens]
    arcs = [module["arcs"][at] for at in net.arcs_at(module, transition["name"])]
    texts = [arc.get("expr", "") for arc in arcs if arc["to"] != "place"]
    found = {name: BY_TOKEN for text in texts for name in bound_by(declared, text)}
    ways = equations(declared, transition.get("guard", ""))
    while True:
        known = next((it for it, of in ways if it not in found and of <= {*found}), None)
        left = [it for it in variables if it not in found]
        tried = next((it for it in left if declared.is_small(declared.colour_of(it))), None)
        if known is None and tried is None:
            return {name: found[name] for name in variables if name in found}
        found[known or tried] = BY_EQUATION if known else TRIED
