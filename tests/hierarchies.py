"""Documents of several modules that are made by name, with their reports, which were worked out from how the document is made.

The words of a row name one:

    A then B        a top with two parts, the modules One and Two; One has the fault A and Two the fault B, each one of FAULTS,
                    and the text of the document has A before B
    A beside B      A and B are faults of the module One, whose text has what is A's before what is B's
    I instances, P places, T transitions
                    so many: each module of the hierarchy has equally many places and transitions, and the top has the rest.
                    No transition has an arc, so all of them are enabled
    I instances, P places in one fusion set
                    the same without a transition, and with one fusion set of all places
    chain of N      N modules, each of which but the last has the next one as its part, and each a place with a token of its own
    long names of N the same, where the parts and the places have names of 64 bytes
    ports of N      the same, and all these places are one, joined by ports and sockets; the last module has the token
    fusion of N     the same, joined by a fusion set
    cycle of N      a top, and below it a chain of N modules, of which the last has the first as its part
    doubled N times N + 1 modules, each of which but the last has the next one as its part twice
    ports doubled N times
                    the same, each with a place, and all these places are one, joined by ports and sockets
    N parts with P places, K listed R times
                    a top with N parts, all one module; both modules have P places, and a fusion set has the first K of the parts' module,
                    one after another, R times
    all of N        N modules, each of which has all later ones as its parts: 2^(N-1) instances
    all of N, and the last again
                    the same, where the last module is its own part too
"""
import json
import re

HEAD = {"version": 1, "declarations": ["colset INT = int;", "colset BOOL = bool;", "var x : INT;"], "top": "Top"}


def module(name, places=(), transitions=(), arcs=(), subs=()):
    return {"name": name, "places": [*places], "transitions": [*transitions], "arcs": [*arcs], "subs": [*subs]}


def place(name, initial=None, port=None):
    written = {"initial": initial, "port": port}
    return {"name": name, "colour": "INT"} | {key: value for key, value in written.items() if value is not None}


def sub(name, submodule, *assign):
    return {"name": name, "module": submodule, "assign": [{"port": port, "socket": socket} for port, socket in assign]}


def arc(place_name, transition, to, expr=None):
    return {"place": place_name, "transition": transition, "to": to} | ({"expr": expr} if expr else {})


def as_bytes(modules, fusions=()):
    return json.dumps({**HEAD, "modules": [*modules], "fusions": [*fusions]}).encode()


def report(places, enabled=0):
    """Returns the report without a trace of a run that is dead at once, or ends after one step with all that was enabled."""
    many, standing = (1 if enabled else 0), [f"ready {enabled}", f"next {0 if enabled else 'none'}"]
    lines = ["report 1", " ".join(["run 0 initial 0", *standing]), "end steps" if enabled else "end dead", f"occurrences {many}", "clock 0"]
    lines += [*(f"place {name} {tokens}" for name, tokens in places), *standing]
    return "\n".join([*lines, f"probe 0 moments {many}", f"probe 1 streak {many}", f"total {many}"]).encode() + b"\n"


# ---- two faults. Each is put into the document, into its module, and as the fault of the first part (0) or the second (1), which
# have two fusion sets each. The module Inner stands behind both.

INNER = module("Inner", [place("In", port="in"), {"name": "Truth", "colour": "BOOL", "port": "in"}])


def member(module_name, place_name):
    return {"module": module_name, "place": place_name}


def refused_declaration(d, m, part):
    d["declarations"].insert(3 * part, "var y")


def joined(assign, *arcs):
    """Returns a fault: a part of the module, with these assignments and arcs."""

    def put(d, m, part):
        m["subs"].append(sub("s", "Inner", *assign))
        m["arcs"] += arcs

    return put


def item(key, value):
    """Returns a fault: a further item of a list of the module."""
    return lambda d, m, part: m[key].append(value)


def in_fusions(first, second):
    """Returns a fault: these members in the two fusion sets of the part."""

    def put(d, m, part):
        for number, places in ((2 * part, first), (2 * part + 1, second)):
            d["fusions"][number]["members"] = [member(name or m["name"], of) for name, of in places]

    return put


def differing(d, m, part):
    m["places"].append(place("D", "1`2"))
    in_fusions([("", "A"), ("", "D")], [])(d, m, part)


def not_bindable(d, m, part):
    m["transitions"].append({"name": "u"})
    m["arcs"].append(arc("B", "u", "place", "x"))


def many(levels, places, transitions):
    """Returns a fault: modules that double at each level, with so many places and transitions each."""

    def put(d, m, part):
        of = "ab"[part]
        for level in range(levels):
            subs = [sub(name, f"M{of}{level + 1}") for name in "lr" if level + 1 < levels]
            each = [place(f"P{i}") for i in range(places)], [{"name": f"t{i}"} for i in range(transitions)]
            d["modules"].append(module(f"M{of}{level}", *each, subs=subs))
        m["subs"].append(sub("many", f"M{of}0"))

    return put


FAULTS = {
    "shape": lambda d, m, part: m.update(x=1),
    "declaration": refused_declaration,
    "colour": item("places", {"name": "C", "colour": "NO"}),
    "unknown_module": item("subs", sub("s", "No")),
    "unknown_place": item("arcs", arc("No", "t", "place")),
    "unknown_transition": item("arcs", arc("B", "no", "place")),
    "cycle": lambda d, m, part: m["subs"].append(sub("s", m["name"])),
    "socket_type": joined([("In", "B")], arc("B", "s", "place")),
    "colour_differs": joined([("Truth", "A")], arc("A", "s", "transition")),
    "port_twice": joined([("In", "A"), ("In", "A")], arc("A", "s", "transition")),
    "port_in_fusion": in_fusions([], [("Inner", "In")]),
    "two_fusions": in_fusions([("", "B")], [("", "B")]),
    "initial": item("places", place("I", "z")),
    "guard": item("transitions", {"name": "g", "guard": "1"}),
    "delay": item("transitions", {"name": "d", "delay": "true"}),
    "expr": item("arcs", arc("B", "t", "place", "true")),
    "bindable": not_bindable,
    "instances": many(13, 0, 0),
    "places": many(10, 17, 0),
    "transitions": many(10, 0, 17),
    "init": item("places", place("F", "1 div 0")),
    "initial_differs": differing,
}
IN_DECLARATIONS, IN_FUSIONS = ("declaration",), ("port_in_fusion", "two_fusions", "initial_differs")


def part_of(name):
    arcs = [arc("A", "t", "transition", "x"), arc("B", "t", "place", "x")]
    return module(name, [place("A", "1`1"), place("B")], [{"name": "t"}], arcs)


def two_parts():
    """Returns a document without a fault: its parts One and Two are the modules 1 and 2."""
    top = module("Top", subs=[sub("one", "One"), sub("two", "Two")])
    fusions = [{"name": f"F{i}", "members": []} for i in range(4)]
    document = {**HEAD, "modules": [top, part_of("One"), part_of("Two"), json.loads(json.dumps(INNER))], "fusions": fusions}
    return document | {"declarations": [*HEAD["declarations"]]}


def key_of(fault):
    """Returns the key of the document under which a fault is put."""
    return "declarations" if fault in IN_DECLARATIONS else "fusions" if fault in IN_FUSIONS else "modules"


def one_then_other(first, second):
    d = two_parts()
    FAULTS[first](d, d["modules"][1], 0)
    FAULTS[second](d, d["modules"][2], 1)
    keys = [key_of(first), *(key for key in d if key not in (key_of(first), key_of(second))), key_of(second)]
    return json.dumps({key: d[key] for key in keys}).encode()


def one_beside_other(first, second):
    d = two_parts()
    m = d["modules"][1]
    FAULTS[first](d, m, 0)
    FAULTS[second](d, m, 0)
    order = [*FAULTS]
    if order.index(first) > order.index(second):
        d["modules"][1] = dict(reversed(m.items()))
    return json.dumps(d).encode()


# ---- very many instances, places and transitions


def counted(instances, places, transitions):
    """Returns the modules: Top, and T0, T1, .., of which each has the one before twice, with 1, 3, 7, .. instances."""
    own = [f"P{i}" for i in range(places // instances)], [f"t{i}" for i in range(transitions // instances)]
    rest = [f"Q{i}" for i in range(places % instances)], [f"u{i}" for i in range(transitions % instances)]
    named = lambda names: [{"name": name} for name in names]
    top = module("Top", [place(name) for name in own[0] + rest[0]], named(own[1] + rest[1]))
    left, modules = instances - 1, []
    for level in reversed(range(instances.bit_length() - 1)):
        while left >= 2 ** (level + 1) - 1:
            top["subs"].append(sub(f"s{len(top['subs'])}", f"T{level}"))
            left -= 2 ** (level + 1) - 1
        subs = [sub(name, f"T{level - 1}") for name in "lr" if level]
        modules.append(module(f"T{level}", [place(name) for name in own[0]], named(own[1]), subs=subs))
    return [top, *modules]


def names_in(modules, of, whole):
    """Yields the names of all place instances, in preorder."""
    for it in modules[of]["places"]:
        yield f"{whole}/{it['name']}"
    for it in modules[of]["subs"]:
        yield from names_in(modules, it["module"], f"{whole}/{it['name']}")


def very_many(instances, places, transitions):
    modules = counted(instances, places, transitions)
    if instances > 4096:
        return as_bytes(modules), None
    names = names_in({it["name"]: it for it in modules}, "Top", "Top")
    return as_bytes(modules), report([(name, "empty") for name in names], transitions)


def all_fused(instances, places):
    modules = counted(instances, places, 0)
    members = [member(m["name"], it["name"]) for m in modules for it in m["places"]]
    return as_bytes(modules, [{"name": "F", "members": members}]), report([("Top/P0", "empty")])


# ---- chains of modules


LONG = "n" * 64


def chain(number, joined_by, part="s", at="P"):
    """Returns modules in a chain, each with a place that is joined to that of the next one by ports, by a fusion set, or not."""
    modules = []
    for i in range(number):
        last = i + 1 == number
        initial = "1`7" if last else f"1`{i}" if not joined_by else None
        port = "io" if joined_by == "ports" and i else None
        assign = [(at, at)] if joined_by == "ports" else []
        name = "Top" if i == 0 else f"M{i}"
        arcs = [arc(at, part, "both")] if joined_by == "ports" and not last else []
        modules.append(module(name, [place(at, initial, port)], [], arcs, [] if last else [sub(part, f"M{i + 1}", *assign)]))
    members = [member(it["name"], at) for it in modules]
    return as_bytes(modules, [{"name": "F", "members": members}] if joined_by == "fusion" else [])


def chained(number, joined_by, part="s", at="P"):
    tokens = [f"1`{7 if i + 1 == number else i}" for i in range(number)]
    each = [("Top" + f"/{part}" * i + f"/{at}", it) for i, it in enumerate(tokens)]
    return chain(number, joined_by, part, at), report([("Top/P", "1`7")] if joined_by else each)


def cycle(number):
    subs = [sub("s", f"M{i % number + 1}") for i in range(number + 1)]
    return as_bytes([module(f"M{i}" if i else "Top", subs=[it]) for i, it in enumerate(subs)])


def doubled(times):
    modules = [module("Top" if i == 0 else f"M{i}", subs=[sub(name, f"M{i + 1}") for name in "lr" if i < times]) for i in range(times + 1)]
    return as_bytes(modules), report([])


def ports_doubled(times):
    modules = []
    for i in range(times + 1):
        parts = "lr" if i < times else ""
        arcs = [arc("P", name, "both") for name in parts]
        subs = [sub(name, f"M{i + 1}", ("P", "P")) for name in parts]
        modules.append(module(f"M{i}" if i else "Top", [place("P", port="io" if i else None)], [], arcs, subs))
    return as_bytes(modules), report([("Top/P", "empty")])


def listed(parts, places, fused, times):
    own = [place(f"P{i}") for i in range(places)]
    members = [member("M", f"P{i}") for _ in range(times) for i in range(fused)]
    modules = [module("Top", own, subs=[sub(f"s{k}", "M") for k in range(parts)]), module("M", own)]
    names = [f"Top/P{i}" for i in range(places)]
    names += [f"Top/s{k}/P{i}" for k in range(parts) for i in range(places) if i >= fused or i == k == 0]
    return as_bytes(modules, [{"name": "F", "members": members}]), report([(name, "empty") for name in names])


def all_later(number, again):
    """Returns modules of which each has all later ones as its parts, and the last one itself where it is said again."""
    names = ["Top", *(f"M{i}" for i in range(1, number))]
    parts = [[sub(it.lower(), it) for it in names[i + 1 :]] for i in range(number)]
    if again:
        parts[-1].append(sub("s", names[-1]))
    return as_bytes([module(name, subs=subs) for name, subs in zip(names, parts)]), report([])


MADE = {
    r"(\w+) then (\w+)": lambda first, second: (one_then_other(first, second), None),
    r"(\w+) beside (\w+)": lambda first, second: (one_beside_other(first, second), None),
    r"(\d+) instances, (\d+) places, (\d+) transitions": lambda *numbers: very_many(*map(int, numbers)),
    r"(\d+) instances, (\d+) places in one fusion set": lambda *numbers: all_fused(*map(int, numbers)),
    r"chain of (\d+)": lambda number: chained(int(number), None),
    r"(ports|fusion) of (\d+)": lambda joined_by, number: chained(int(number), joined_by),
    r"long names of (\d+)": lambda number: chained(int(number), None, LONG, LONG),
    r"all of (\d+)(, and the last again)?": lambda number, again: all_later(int(number), again),
    r"cycle of (\d+)": lambda number: (cycle(int(number)), None),
    r"doubled (\d+) times": lambda times: doubled(int(times)),
    r"ports doubled (\d+) times": lambda times: ports_doubled(int(times)),
    r"(\d+) parts with (\d+) places, (\d+) listed (\d+) times": lambda *numbers: listed(*map(int, numbers)),
}


def made(words):
    """Returns the document that the words name, and its report, where it has one."""
    for form, make in MADE.items():
        if found := re.fullmatch(form, words):
            return make(*found.groups())
    raise ValueError(f"there is no document of modules {words}")


def document(words):
    return made(words)[0]


def report_of(words):
    return made(words)[1]
