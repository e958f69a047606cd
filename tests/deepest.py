"""Documents as deep as the limits let them be, each with its report, which was worked out from how the document is made.

In each of them a transition t takes one token from A and puts one on B. The words of a row name one:

    chain_FORM      1,000 functions, each of which calls the one before from the deepest place of a body that is 63 deep, or
                    62 where the form takes two levels; FORM is one of CALLS, or `mixed`, where they take the forms in turn
    NEST            an inscription that is 64 deep, or 63 where the form takes two levels: one of NESTS
    SET             a colour set that is 32 deep, or one with very many parts: one of SETS
"""
import json

FUNCTIONS = 1000
BODY = 63
INT = ("colset INT = int;", "var x : INT;")
SAME = "fun same(n : INT) : INT = n;"


def document_with(declarations, first, second, initial, text):
    """Returns a document: a place A of a colour set with an initial marking, a place B of another, and t from A to B."""
    module = {
        "name": "Top",
        "places": [{"name": "A", "colour": first, "initial": initial}, {"name": "B", "colour": second}],
        "transitions": [{"name": "t"}],
        "arcs": [
            {"place": "A", "transition": "t", "to": "transition", "expr": "x"},
            {"place": "B", "transition": "t", "to": "place", "expr": text},
        ],
    }
    return json.dumps({"version": 1, "declarations": [*declarations], "top": "Top", "modules": [module]}).encode()


def report_with(tokens):
    """Returns the report of its run without a trace: t occurs once, and these tokens are on B."""
    lines = ["report 1", "run 0 initial 0 ready 1 next 0", "end dead", "occurrences 1", "clock 0"]
    lines += ["place Top/A empty", f"place Top/B {tokens}", "ready 0", "next none", "probe 0 moments 1", "probe 1 streak 1", "total 1"]
    return "\n".join(lines).encode() + b"\n"


# ---- functions: what stands on both sides of what is nested, how many levels that is, and what it adds to the value

CALLS = {
    "addition": ("1 + (", ")", 1, 1),
    "subtraction": ("(", ") - 1", 1, -1),
    "sign": ("~ ~ ", "", 2, 0),
    "branch": ("if n > 0 then ", " else 0", 1, 0),
    "subject": ("case (", ") of a => a", 1, 0),
    "arm": ("case n of a => ", "", 1, 0),
    "local": ("let val a = ", " in a end", 1, 0),
    "body": ("let val a = n in ", " end", 1, 0),
    "argument": ("same(", ")", 1, 0),
    "item": ("hd([", "])", 2, 0),
    "part": ("#1 (", ", 0)", 2, 0),
    "start": ("foldl i, a over [1] from (", ") do i + a", 1, 1),
    "fold": ("foldl i, a over [1] from 0 do ", "", 1, 0),
}


def body_of(form, called):
    """Returns a body that is at most 63 deep with the call in its deepest place, and what it adds to the call's value."""
    before, behind, levels, adds = CALLS[form]
    times = (BODY - 2) // levels
    return before * times + called + behind * times, adds * times


def chain(forms):
    """Returns the functions f0, f1, .., of which each calls the one before, and what the last adds to its argument."""
    functions, added = [SAME, "fun f0(n : INT) : INT = n;"], 0
    for i in range(1, FUNCTIONS):
        body, adds = body_of(forms[i % len(forms)], f"f{i - 1}(n)")
        functions.append(f"fun f{i}(n : INT) : INT = {body};")
        added += adds
    return functions, added


def chained(form):
    functions, added = chain([*CALLS] if form == "mixed" else [form])
    value = 7 + added
    tokens = f"1`{value}" if value >= 0 else f"1`~{-value}"
    text = f"f{FUNCTIONS - 1}(x)"
    return document_with([*INT, *functions], "INT", "INT", "7", text), report_with(tokens)


# ---- inscriptions: the colour set of B, the text and the tokens. Where a form has another part that is two levels deep, as the
# condition x = 7 or the list [1], it is three deep over a name.


def nested(before, core, behind, times):
    return before * times + core + behind * times


def lists(times):
    return nested("[", "x", "]", times)


def pairs(core, other, times):
    return nested("(", core, f", {other})", times)


NESTS = {
    "additions": ("INT", nested("1 + (", "x", ")", 63), "1`70"),
    "additions_to_the_left": ("INT", nested("", "x", " + 1", 63), "1`70"),
    "concatenations": ("STRING", nested("", '"a"', ' ^ "b"', 63), '1`"a' + "b" * 63 + '"'),
    "conjunctions": ("BOOL", nested("", "x = 7", " andalso true", 62), "1`true"),
    "disjunctions": ("BOOL", nested("false orelse (", "x = 7", ")", 62), "1`true"),
    "comparisons": ("BOOL", "(" * 62 + "x = 7" + ") = true" * 62, "1`true"),
    "conditions": ("BOOL", nested("if (", "x = 7", ") then true else false", 62), "1`true"),
    "branches": ("INT", "0 + (" + nested("if x = 7 then (", "x", ") else 0", 61) + ")", "1`7"),
    "branches_of_multisets": ("INT", nested("if x = 7 then (", "x", ") else empty", 62), "1`7"),
    "else": ("INT", nested("if x = 8 then empty else ", "x", "", 62), "1`7"),
    "subjects": ("INT", nested("case (", "x", ") of a => a", 63), "1`7"),
    "arms": ("INT", "0 + (" + nested("case x of a => ", "x", "", 62) + ")", "1`7"),
    "arms_of_multisets": ("INT", nested("case x of a => ", "a", "", 63), "1`7"),
    "locals": ("INT", nested("let val a = ", "x", " in a end", 63), "1`7"),
    "bodies": ("INT", "0 + (" + nested("let val a = x in ", "a", " end", 62) + ")", "1`7"),
    "bodies_of_multisets": ("INT", nested("let val a = x in ", "a", " end", 63), "1`7"),
    "folded_lists": ("LIST", nested("foldl i, a over (", "[x]", ") from tl([0]) do i :: a", 61), "1`[7]"),
    "starts": ("INT", nested("foldl i, a over [1] from (", "x", ") do i + a", 62), "1`69"),
    "folds": ("INT", nested("foldl i, a over [1] from 0 do ", "x", "", 62), "1`7"),
    "calls": ("INT", nested("same(", "x", ")", 63), "1`7"),
    "heads": ("INT", nested("hd([", "x", "])", 31), "1`7"),
    "lists": ("INT", "length(" + lists(62) + ")", "1`1"),
    "parts_of_tuples": ("INT", "#1 " * 31 + pairs("x", "0", 31), "1`7"),
    "tuples": ("INT", "case " + pairs("x", "0", 62) + " of _ => 1", "1`1"),
    "heads_and_tails": ("LIST", nested("1 :: ", "[]", "", 63), "1`[" + ",".join(["1"] * 63) + "]"),
    "lists_together": ("LIST", nested("[1] ^^ ", "[]", "", 62), "1`[" + ",".join(["1"] * 62) + "]"),
    "equal_lists": ("BOOL", lists(62) + " = " + lists(62), "1`true"),
    "patterns_of_lists": ("INT", "case " + lists(62) + " of " + lists(62).replace("x", "a") + " => a", "1`7"),
    "patterns_of_tuples": ("INT", "case " + pairs("x", "0", 62) + " of " + pairs("a", "_", 62) + " => a", "1`7"),
    "patterns_of_heads": ("INT", "case [" + ",".join(["x"] * 62) + "] of " + "_ :: " * 62 + "_ => x", "1`7"),
    "sums": ("INT", nested("1 ++ (", "x", ")", 63), "63`1 ++ 1`7"),
    "sums_to_the_left": ("INT", "(" * 62 + "x ++ 1" + ") ++ 1" * 62, "63`1 ++ 1`7"),
}


def nest(name):
    colour, text, tokens = NESTS[name]
    declarations = [*INT, "colset STRING = string;", "colset BOOL = bool;", "colset LIST = list INT;", SAME]
    return document_with(declarations, "INT", colour, "7", text), report_with(tokens)


# ---- colour sets: their declarations, the last of which is that of the places, a token, and how it is printed

LETTERS = "ABCDEFGHIJKLMNOPQRSTUVWXYZ"
NAMES = [first + second for first in LETTERS for second in LETTERS + LETTERS.lower()][:1000]
SETS = {
    "lists_in_lists": (
        [f"colset C{i} = list {f'C{i - 1}' if i > 1 else 'INT'};" for i in range(1, 32)],
        *["[" * 31 + "7" + "]" * 31] * 2,
    ),
    "products_in_products": (
        [f"colset C{i} = product {f'C{i - 1}' if i > 1 else 'INT'} * INT;" for i in range(1, 32)],
        *["(" * 31 + "7" + ",0)" * 31] * 2,
    ),
    "unions_in_unions": (
        [f"colset C{i} = union c{i} : {f'C{i - 1}' if i > 1 else 'INT'};" for i in range(1, 32)],
        *["".join(f"c{i}(" for i in range(31, 0, -1)) + "7" + ")" * 31] * 2,
    ),
    "1000_constructors": ([f"colset C = union {'+'.join(NAMES)};"], NAMES[-1], NAMES[-1]),
    "1000_constants": ([f"colset C = with {'|'.join(NAMES)};"], NAMES[-1], NAMES[-1]),
    "2000_components": (
        ["colset I = int;", f"colset C = product {'*'.join('I' * 2000)};"],
        *["(" + ",".join("0" * 2000) + ")"] * 2,
    ),
}


def set_of(name):
    declarations, token, printed = SETS[name]
    colour = declarations[-1].split()[1]
    declarations = ["colset INT = int;", *declarations, f"var x : {colour};"]
    return document_with(declarations, colour, colour, token, "x"), report_with(f"1`{printed}")


def made(words):
    """Returns the document that the words name, and its report."""
    if words.startswith("chain_"):
        return chained(words.removeprefix("chain_"))
    if words in NESTS:
        return nest(words)
    if words in SETS:
        return set_of(words)
    raise ValueError(f"there is no deepest document {words}")


def document(words):
    return made(words)[0]


def report(words):
    return made(words)[1]
