"""Graphs of Newton objects.

A reference is an int, the 32-bit word of an immediate, or the object that it leads to. What is shared is one object of
Python, so a cycle is a cycle.
"""

from dataclasses import dataclass, field
from typing import Callable, Iterator, Optional, Union

NIL = 2
TRUE = 26
LEAST_INTEGER, MOST_INTEGER = -536_870_912, 536_870_911
MOST_NODES = 65_535
MOST_OPEN = 200
MOST_SLOTS = 65_535
MOST_BYTES = 1_000_000
MOST_BYTES_TOGETHER = 16_777_216


class Node:
    """An object of a graph. Equal objects are two unless they are one."""

    def parts(self) -> list:
        """The references that it holds, in the order of the walk."""
        return []

    def size(self) -> int:
        """Its bytes, as far as they count for the limits."""
        return 0

    def slots(self) -> int:
        return 0

    def renew(self, of: Callable) -> None:
        """Puts what a function gives of them in the place of its references."""


@dataclass(eq=False)
class Symbol(Node):
    name: bytes


@dataclass(eq=False)
class String(Node):
    units: list[int] = field(default_factory=list)

    def size(self) -> int:
        return 2 * len(self.units) + 2


@dataclass(eq=False)
class Binary(Node):
    kind: Optional[Symbol] = None
    data: bytes = b""

    def parts(self) -> list:
        return [self.kind]

    def size(self) -> int:
        return len(self.data)

    def renew(self, of: Callable) -> None:
        self.kind = of(self.kind)


class Large(Binary):
    """A large binary."""


@dataclass(eq=False)
class Array(Node):
    kind: Optional[Symbol] = None
    values: list = field(default_factory=list)

    def parts(self) -> list:
        return ([] if self.kind is None else [self.kind]) + self.values

    def slots(self) -> int:
        return len(self.values)

    def renew(self, of: Callable) -> None:
        self.kind = None if self.kind is None else of(self.kind)
        self.values = [of(it) for it in self.values]


@dataclass(eq=False)
class Frame(Node):
    tags: list[Symbol] = field(default_factory=list)
    values: list = field(default_factory=list)

    def parts(self) -> list:
        return self.tags + self.values

    def slots(self) -> int:
        return len(self.values)

    def renew(self, of: Callable) -> None:
        self.tags = [of(it) for it in self.tags]
        self.values = [of(it) for it in self.values]

    def slot(self, name: bytes) -> Optional[int]:
        """The place of the slot of a name, which is found without regard to case."""
        found = [at for at, tag in enumerate(self.tags) if is_same_name(tag.name, name)]
        return found[0] if found else None


Ref = Union[int, Node]


def is_same_name(one: bytes, other: bytes) -> bool:
    return one.lower() == other.lower()


def integer(value: Ref) -> Optional[int]:
    """The integer of an immediate word that is one."""
    if not isinstance(value, int) or value & 3 != 0:
        return None
    return (value if value < 1 << 31 else value - (1 << 32)) >> 2


def word_of_integer(number: int) -> int:
    return 4 * number & 0xFFFF_FFFF


def character(value: Ref) -> Optional[int]:
    """The code of an immediate word that is a character."""
    if not isinstance(value, int) or value & 15 != 6 or value >> 4 > 65_535:
        return None
    return value >> 4


def word_of_character(code: int) -> int:
    return 16 * code + 6


def units_of(text: str) -> list[int]:
    """The units of a string with this text: a character past 65,535 is a pair of them."""
    data = text.encode("utf-16-be", "surrogatepass")
    return [int.from_bytes(data[at : at + 2], "big") for at in range(0, len(data), 2)]


def objects_of(parts: list) -> Iterator[Node]:
    return iter([it for it in parts if not isinstance(it, int)])


class Walk:
    """The nodes that a reference reaches, in the order of first meeting: an object, then its class, tags and values."""

    def __init__(self, root: Ref):
        self.nodes: list[Node] = []
        self.numbers: dict[int, int] = {}
        self.shared: set[int] = set()
        self.most_open = 0
        places = [(objects_of([root]), 0)]
        while places:
            parts, is_open = places[-1]
            node = next(parts, None)
            if node is None:
                places.pop()
            elif id(node) in self.numbers:
                self.shared.add(id(node))
            else:
                self.numbers[id(node)] = len(self.nodes)
                self.nodes.append(node)
                now = is_open + isinstance(node, (Array, Frame))
                self.most_open = max(self.most_open, now)
                places.append((objects_of(node.parts()), now))

    def keeps_limits(self) -> bool:
        sizes = [it.size() for it in self.nodes]
        return (
            len(self.nodes) <= MOST_NODES
            and self.most_open <= MOST_OPEN
            and all(it.slots() <= MOST_SLOTS for it in self.nodes)
            and all(it <= MOST_BYTES for it in sizes)
            and sum(sizes) <= MOST_BYTES_TOGETHER
        )

    def larges(self) -> list[Large]:
        return [it for it in self.nodes if isinstance(it, Large)]

    def labels(self) -> dict[int, int]:
        """A label for each object but symbols that more references lead to, by its identity."""
        shared = [it for it in self.nodes if id(it) in self.shared and not isinstance(it, Symbol)]
        return {id(it): label for label, it in enumerate(shared)}


def copied(root: Ref) -> Ref:
    """An equal graph of new objects."""
    new = {}
    walk = Walk(root)
    for node in walk.nodes:
        new[id(node)] = object.__new__(type(node))
        new[id(node)].__dict__.update(node.__dict__)
    for node in new.values():
        node.renew(lambda it: new.get(id(it), it))
    return new.get(id(root), root)


def with_symbols(root: Ref, symbols: dict[bytes, Symbol]) -> Ref:
    """The graph with the known symbol in the place of each that has its name, without regard to case.

    The graph itself is changed, and a name that was not known is known afterwards.
    """

    def known(it: Ref) -> Ref:
        return symbols.setdefault(it.name.lower(), it) if isinstance(it, Symbol) else it

    for node in Walk(root).nodes:
        node.renew(known)
    return known(root)


def value_at(root: Ref, path: tuple) -> Optional[Ref]:
    """What a path of names reaches from frame to frame."""
    for name in path:
        place = root.slot(name) if isinstance(root, Frame) else None
        if place is None:
            return None
        root = root.values[place]
    return root


def with_value(root: Ref, path: tuple, value: Ref) -> Optional[Ref]:
    """The graph with a value put where a path leads.

    It is nothing where a slot before the last is missing or a step is not taken from a frame. Symbols that differ in
    case alone become one: the graph's, else the path's, else the value's.
    """
    root, value = copied(root), copied(value)
    frame = value_at(root, path[:-1])
    if not isinstance(frame, Frame):
        return None
    symbols = {it.name.lower(): it for it in Walk(root).nodes if isinstance(it, Symbol)}
    last = symbols.setdefault(path[-1].lower(), Symbol(path[-1]))
    value = with_symbols(value, symbols)
    place = frame.slot(path[-1])
    if place is None:
        frame.tags.append(last)
        frame.values.append(value)
    else:
        frame.values[place] = value
    return root
