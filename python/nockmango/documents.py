"""A net document as a Python object: built by its methods, or loaded, changed, and run.

    net = Net("Bridge")
    net.colour_set("TONNES", "int")
    net.variables("TONNES", "w")
    bridge = net.module("Bridge")
    bridge.place("Waiting", "TONNES", initial="3`7 ++ 1`12")
    bridge.place("Across", "TONNES")
    bridge.transition("cross", guard="w <= 10")
    bridge.input_arc("Waiting", "cross", "w")
    bridge.output_arc("cross", "Across", "w")

docs/NETS.md says what each object and each key means; the fields of a class are the keys of its
object. What is None is left out, and so is an empty list of a key that may be missing. Inscriptions
are texts of the language. Nothing is checked here: the program does that when it runs the net.
"""
from __future__ import annotations

import json
import os
import re
from dataclasses import MISSING, dataclass, field, fields
from typing import Any, ClassVar, Dict, List, Mapping, Optional, Tuple, Union

VERSION = 1
ARCS_OF_PORT = {"in": "transition", "out": "place", "io": "both"}


class Part:
    """A part of a document: an object whose keys are the fields."""

    ITEMS: ClassVar[Mapping[str, Any]] = {}  # how the items of a list are loaded, by its key
    OPTIONAL: ClassVar[Tuple[str, ...]] = ()  # the lists that are left out where they are empty

    def document(self) -> Dict[str, Any]:
        """Returns the part as a JSON value."""
        found = {}
        for it in fields(self):
            value = getattr(self, it.name)
            if value is not None and not (value == [] and it.name in self.OPTIONAL):
                found[it.name] = plain(value)
        return found

    @classmethod
    def load(cls, document: Mapping[str, Any]):
        """Returns the part that a JSON value is."""
        known = {it.name: it for it in fields(cls)}
        for key in document:
            if key not in known:
                raise ValueError(f"{key!r} is no key of a {cls.__name__.lower()}: {document}")
        for name, it in known.items():
            if it.default is MISSING and it.default_factory is MISSING and name not in document:
                raise ValueError(f"a {cls.__name__.lower()} has no key {name!r}: {document}")
        return cls(**{key: cls.loaded(key, value) for key, value in document.items()})

    @classmethod
    def loaded(cls, key: str, value: Any) -> Any:
        """Returns the value of a key, the items of a list as parts."""
        if not isinstance(value, list):
            return value
        return [cls.ITEMS[key](it) if key in cls.ITEMS else it for it in value]


def plain(value: Any) -> Any:
    """Returns a value of a field as a JSON value."""
    if isinstance(value, list):
        return [plain(it) for it in value]
    return value.document() if isinstance(value, Part) else value


def of_kind(kinds: Mapping[str, Any], document: Mapping[str, Any]) -> Part:
    """Returns the part that a JSON value is, by its key `kind`."""
    kind = document.get("kind")
    if kind not in kinds:
        raise ValueError(f"the kind is none of {', '.join(kinds)}: {document}")
    return kinds[kind].load({key: it for key, it in document.items() if key != "kind"})


def name_of(it: Named) -> str:
    """Returns the name of a place, a transition or a module, which may be given by its name."""
    return it if isinstance(it, str) else it.name


def named(items: List[Any], name: str, kind: str) -> Any:
    """Returns the item of a name."""
    for it in items:
        if it.name == name:
            return it
    names = ", ".join(it.name for it in items) or "none"
    raise LookupError(f"there is no {kind} {name}: there is {names}")


# ---- modules


@dataclass
class Place(Part):
    """A place: it holds tokens of one colour set, and those of the initial marking at first.

    As a port, `in`, `out` or `io`, it is one with the socket that a substitution transition
    assigns to it.
    """

    name: str
    colour: str
    initial: Optional[str] = None
    port: Optional[str] = None


@dataclass
class Transition(Part):
    """A transition: its guard, which is true where none is written, and its delay, which is 0."""

    name: str
    guard: Optional[str] = None
    delay: Optional[str] = None


@dataclass
class Arc(Part):
    """An arc between a place and a transition: `to` is `transition` for an input arc, `place` for
    an output arc, and `both` for one of each with the same inscription."""

    place: str
    transition: str
    to: str
    expr: Optional[str] = None


@dataclass
class Assignment(Part):
    """A port of a submodule, and its socket, a place of the module itself: they are one place."""

    port: str
    socket: str


@dataclass
class Substitution(Part):
    """A substitution transition: it stands for an instance of a module."""

    name: str
    module: str
    assign: List[Assignment] = field(default_factory=list)

    ITEMS = {"assign": Assignment.load}


@dataclass
class Module(Part):
    """A module: places, transitions and arcs, and substitution transitions for other modules."""

    name: str
    places: List[Place] = field(default_factory=list)
    transitions: List[Transition] = field(default_factory=list)
    arcs: List[Arc] = field(default_factory=list)
    subs: List[Substitution] = field(default_factory=list)

    ITEMS = {
        "places": Place.load,
        "transitions": Transition.load,
        "arcs": Arc.load,
        "subs": Substitution.load,
    }
    OPTIONAL = ("subs",)

    def place(
        self, name: str, colour: str, initial: Optional[str] = None, port: Optional[str] = None
    ) -> Place:
        """Adds a place; with a port type it is a port of the module."""
        self.places.append(Place(name, colour, initial, port))
        return self.places[-1]

    def transition(
        self, name: str, guard: Optional[str] = None, delay: Optional[str] = None
    ) -> Transition:
        """Adds a transition."""
        self.transitions.append(Transition(name, guard, delay))
        return self.transitions[-1]

    def input_arc(self, place: Named, transition: Named, expr: Optional[str] = None) -> Arc:
        """Adds an arc from a place to a transition."""
        return self._arc(place, transition, "transition", expr)

    def output_arc(self, transition: Named, place: Named, expr: Optional[str] = None) -> Arc:
        """Adds an arc from a transition to a place."""
        return self._arc(place, transition, "place", expr)

    def both_ways(self, place: Named, transition: Named, expr: Optional[str] = None) -> Arc:
        """Adds an arc both ways: the tokens that it takes are put back."""
        return self._arc(place, transition, "both", expr)

    def _arc(self, place: Named, transition: Named, to: str, expr: Optional[str]) -> Arc:
        self.arcs.append(Arc(name_of(place), name_of(transition), to, expr))
        return self.arcs[-1]

    def substitution(self, name: str, module: Module, sockets: Mapping[str, Named]) -> Substitution:
        """Adds a substitution transition for a module, and its arcs.

        `sockets` has for ports of that module their sockets, which are places of this one. The arcs
        between a socket and the substitution transition follow from the type of the port.
        """
        sub = Substitution(name, module.name)
        self.subs.append(sub)
        ways: Dict[str, str] = {}
        for port, socket in sockets.items():
            kind = module.place_named(port).port
            if kind not in ARCS_OF_PORT:
                raise ValueError(f"the place {port} of module {module.name} is no port")
            sub.assign.append(Assignment(port, name_of(socket)))
            ways[name_of(socket)] = ARCS_OF_PORT[kind]
        for socket, way in ways.items():
            self._arc(socket, name, way, None)
        return sub

    def place_named(self, name: str) -> Place:
        """Returns the place of a name. LookupError says which there are."""
        return named(self.places, name, "place")

    def transition_named(self, name: str) -> Transition:
        """Returns the transition of a name. LookupError says which there are."""
        return named(self.transitions, name, "transition")


Named = Union[str, Place, Transition, Substitution, Module]


@dataclass
class Member(Part):
    """A member of a fusion set: a place of a module."""

    module: str
    place: str


@dataclass
class Fusion(Part):
    """A fusion set: its members are one place, and so are all their instances."""

    name: str
    members: List[Member] = field(default_factory=list)

    ITEMS = {"members": Member.load}


# ---- monitors: they tell a place or a transition by its name in the report


@dataclass
class Monitor(Part):
    """A monitor: it watches each run, and is told by its name in the report."""

    kind: ClassVar[str]
    name: str

    def document(self) -> Dict[str, Any]:
        return {"name": self.name, "kind": self.kind, **super().document()}


@dataclass
class CountMonitor(Monitor):
    """Counts the occurrences of a transition."""

    kind: ClassVar[str] = "count"
    transition: str


@dataclass
class SizeMonitor(Monitor):
    """Follows how many tokens are on a place."""

    kind: ClassVar[str] = "size"
    place: str


@dataclass
class ValueMonitor(Monitor):
    """Works out an integer at each occurrence of a transition, from the transition's variables."""

    kind: ClassVar[str] = "value"
    transition: str
    expr: str


@dataclass
class StopCountMonitor(Monitor):
    """Ends the run after occurrence number n of a transition."""

    kind: ClassVar[str] = "stop_count"
    transition: str
    n: int


@dataclass
class StopSizeMonitor(Monitor):
    """Ends the run after an occurrence that leaves so many tokens on a place: `op` is `at_least`
    or `at_most`."""

    kind: ClassVar[str] = "stop_size"
    place: str
    op: str
    n: int


MONITORS = {
    it.kind: it
    for it in (CountMonitor, SizeMonitor, ValueMonitor, StopCountMonitor, StopSizeMonitor)
}


# ---- phases


@dataclass
class Edit(Part):
    """A change of the net before a run. It stays in all later ones, until another replaces it."""

    kind: ClassVar[str]

    def document(self) -> Dict[str, Any]:
        return {"kind": self.kind, **super().document()}


@dataclass
class GuardEdit(Edit):
    """Another guard of a transition, which is told by its name in the report."""

    kind: ClassVar[str] = "guard"
    transition: str
    text: str


@dataclass
class InitialEdit(Edit):
    """Another initial marking of a place, which is told by its name in the report."""

    kind: ClassVar[str] = "initial"
    place: str
    text: str


EDITS = {it.kind: it for it in (GuardEdit, InitialEdit)}


@dataclass
class Phase(Part):
    """A phase: one run, from the initial marking (`initial`) or from where the run before it has
    ended (`here`). Its edits are made first."""

    start: str = "initial"
    edits: List[Edit] = field(default_factory=list)

    ITEMS = {"edits": lambda document: of_kind(EDITS, document)}
    OPTIONAL = ("edits",)


# ---- the net


@dataclass
class Net(Part):
    """A net: the name of its top module, its declarations, which are texts, and its modules; and
    fusion sets, monitors and phases, where it has them."""

    top: str
    declarations: List[str] = field(default_factory=list)
    modules: List[Module] = field(default_factory=list)
    fusions: List[Fusion] = field(default_factory=list)
    monitors: List[Monitor] = field(default_factory=list)
    phases: List[Phase] = field(default_factory=list)

    ITEMS = {
        "modules": Module.load,
        "fusions": Fusion.load,
        "monitors": lambda document: of_kind(MONITORS, document),
        "phases": Phase.load,
    }
    OPTIONAL = ("fusions", "monitors", "phases")

    def document(self) -> Dict[str, Any]:
        """Returns the document as a JSON value, which `load` makes a net again."""
        return {"version": VERSION, "declarations": None, **super().document()}

    def text(self) -> str:
        """Returns the document as a text, which the program reads."""
        return json.dumps(self.document(), indent=2) + "\n"

    @classmethod
    def load(cls, source: Source) -> Net:
        """Returns the net of a document: a path, a text, or a JSON value."""
        document = source if isinstance(source, dict) else json.loads(bytes_of(source))
        if not isinstance(document, dict) or document.get("version") != VERSION:
            raise ValueError(f"this is no net document of version {VERSION}")
        return super().load({key: it for key, it in document.items() if key != "version"})

    # -- declarations, each of which sees those before it

    def colour_set(self, name: str, body: str, timed: bool = False) -> str:
        """Declares a colour set: colour_set("PAIR", "product INT * STRING"). The tokens of one that
        is timed have time stamps."""
        self.declarations.append(f"colset {name} = {body}{' timed' if timed else ''};")
        return name

    def variables(self, colour_set: str, *names: str) -> None:
        """Declares variables of a colour set, to which bindings give values."""
        self.declarations.append(f"var {', '.join(names)} : {colour_set};")

    def value(self, name: str, text: str) -> str:
        """Declares a name for what a text gives: value("service", "4"). A name that is declared so
        already gets the new text, where it stands."""
        form = re.compile(rf"\s*val\s+{re.escape(name)}\b")
        declared = [at for at, it in enumerate(self.declarations) if form.match(it)]
        made = f"val {name} = {text};"
        if declared:
            self.declarations[declared[0]] = made
        else:
            self.declarations.append(made)
        return name

    def function(self, name: str, parameters: Mapping[str, str], result: str, body: str) -> str:
        """Declares a function, of parameters with their colour sets: function("twice", {"n":
        "INT"}, "INT", "2 * n")."""
        listed = ", ".join(f"{parameter} : {colour}" for parameter, colour in parameters.items())
        self.declarations.append(f"fun {name}({listed}) : {result} = {body};")
        return name

    # -- modules and fusion sets

    def module(self, name: str) -> Module:
        """Adds a module without anything in it."""
        self.modules.append(Module(name))
        return self.modules[-1]

    def fuse(self, name: str, *members: Tuple[Named, Named]) -> Fusion:
        """Adds a fusion set of places, each given with its module: fuse("Memory", ("Process",
        "Counter"), ("Display", "Source"))."""
        listed = [Member(name_of(module), name_of(place)) for module, place in members]
        self.fusions.append(Fusion(name, listed))
        return self.fusions[-1]

    def module_named(self, name: str) -> Module:
        """Returns the module of a name. LookupError says which there are."""
        return named(self.modules, name, "module")


Source = Union[Net, Dict[str, Any], str, bytes, "os.PathLike[str]"]


def bytes_of(source: Source) -> bytes:
    """Returns the bytes of a document: of a net, a JSON value, a text, or the file of a path.

    A `str` that begins with a brace is a text, and any other one a path; `bytes` are a text.
    """
    if isinstance(source, Net):
        return source.text().encode()
    if isinstance(source, dict):
        return json.dumps(source).encode()
    if isinstance(source, bytes):
        return source
    if isinstance(source, str) and source.lstrip().startswith("{"):
        return source.encode()
    with open(source, "rb") as file:
        return file.read()
