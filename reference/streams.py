"""The streamed form of graphs (NSOF, version 2): what bytes spell, and the two texts of a graph.

The flat text is that of records and of the cost; the written one has small rectangles, and is what replies hold.
"""

import re
import struct
from typing import Callable, Optional

from graphs import (
    MOST_BYTES,
    MOST_BYTES_TOGETHER,
    MOST_NODES,
    MOST_OPEN,
    MOST_SLOTS,
    NIL,
    Array,
    Binary,
    Frame,
    Large,
    Ref,
    String,
    Symbol,
    Walk,
    character,
    integer,
    is_same_name,
    word_of_character,
    word_of_integer,
)
from scanner import Scanner

SIDES = (b"top", b"left", b"bottom", b"right")
NAME = re.compile(rb"[ -~]{1,254}")


class Malformed(Exception):
    """The bytes spell no graph."""


class Reader(Scanner):
    """A stream that is read once, from its first byte on."""

    fault = Malformed

    def __init__(self, stream: bytes):
        super().__init__(stream)
        self.numbered: list = []
        self.symbols: dict[bytes, Symbol] = {}
        self.nodes = self.bytes = 0
        self.is_compressed = False

    def byte(self) -> int:
        self.wants(self.at < len(self.text))
        self.at += 1
        return self.text[self.at - 1]

    def xlong(self) -> int:
        short = self.byte()
        return short if short < 255 else int.from_bytes(self.take(4), "big", signed=True)

    def count(self, most: int) -> int:
        found = self.xlong()
        self.wants(0 <= found <= most)
        return found

    def met(self, node, is_numbered: bool = True):
        self.nodes += 1
        self.wants(self.nodes <= MOST_NODES)
        if is_numbered:
            self.numbered.append(node)
        return node

    def data(self, count: int) -> bytes:
        self.bytes += count
        self.wants(count <= MOST_BYTES and self.bytes <= MOST_BYTES_TOGETHER)
        return self.take(count)

    def precedent(self):
        number = self.xlong()
        self.wants(0 <= number < len(self.numbered))
        return self.numbered[number]

    def named(self, name: bytes, is_numbered: bool) -> Symbol:
        """The symbol of a name, which is the one that was met before where there is one."""
        self.wants(NAME.fullmatch(name))
        known = self.symbols.get(name.lower())
        if known is None:
            self.symbols[name.lower()] = self.met(Symbol(name), is_numbered)
            return self.symbols[name.lower()]
        if is_numbered:
            self.numbered.append(known)
        return known

    def symbol(self) -> Symbol:
        tag = self.byte()
        self.wants(tag in (7, 9))
        found = self.precedent() if tag == 9 else self.named(self.take(self.count(254)), True)
        self.wants(isinstance(found, Symbol))
        return found

    def container(self, node, is_open: int):
        self.wants(is_open < MOST_OPEN)
        return self.met(node)

    def values(self, node, count: int, is_open: int):
        for _ in range(count):
            node.values.append(self.object(is_open + 1))
        return node

    def array(self, has_class: bool, is_open: int) -> Array:
        count = self.count(MOST_SLOTS)
        array = self.container(Array(), is_open)
        array.kind = self.symbol() if has_class else None
        return self.values(array, count, is_open)

    def frame(self, is_open: int) -> Frame:
        count = self.count(MOST_SLOTS)
        frame = self.container(Frame(), is_open)
        for _ in range(count):
            frame.tags.append(self.symbol())
        self.wants(len({id(it) for it in frame.tags}) == count)
        return self.values(frame, count, is_open)

    def rectangle(self, is_open: int) -> Frame:
        frame = self.container(Frame(), is_open)
        sides = self.take(4)
        frame.tags = [self.named(it, False) for it in SIDES]
        frame.values = [word_of_integer(it) for it in sides]
        return frame

    def string(self) -> String:
        count = self.count(MOST_BYTES)
        self.wants(count >= 2 and count % 2 == 0)
        string = self.met(String())
        data = self.data(count)
        units = list(struct.unpack(f">{count // 2}H", data))
        self.wants(units.pop() == 0)
        string.units = units
        return string

    def binary(self) -> Binary:
        count = self.count(MOST_BYTES)
        binary = self.met(Binary())
        binary.kind = self.symbol()
        binary.data = self.data(count)
        return binary

    def large(self) -> Large:
        large = self.met(Large())
        large.kind = self.symbol()
        self.is_compressed |= self.number(1) != 0
        length, name, parameters, _ = [self.number(4) for _ in range(4)]
        self.wants(length <= MOST_BYTES)
        self.take(name)
        self.take(parameters)
        large.data = self.data(length)
        return large

    def immediate(self) -> int:
        word = self.xlong() & 0xFFFF_FFFF
        self.wants(word & 3 != 1)
        return word

    def object(self, is_open: int) -> Ref:
        tag = self.byte()
        self.wants(tag <= 12)
        if tag == 7:
            self.at -= 1
        return OBJECTS[tag](self, is_open)


# What reads an object, by its tag.
OBJECTS: tuple[Callable[[Reader, int], Ref], ...] = (
    lambda it, _: it.immediate(),
    lambda it, _: word_of_character(it.byte()),
    lambda it, _: word_of_character(it.number(2)),
    lambda it, _: it.binary(),
    lambda it, is_open: it.array(True, is_open),
    lambda it, is_open: it.array(False, is_open),
    Reader.frame,
    lambda it, _: it.symbol(),
    lambda it, _: it.string(),
    lambda it, _: it.precedent(),
    lambda it, _: NIL,
    Reader.rectangle,
    lambda it, _: it.large(),
)


def decode(stream: bytes) -> tuple[Ref, bool]:
    """The graph that a stream spells, and whether a large binary of it is marked as compressed."""
    reader = Reader(stream)
    reader.wants(reader.number(1) == 2)
    root = reader.object(0)
    reader.wants(reader.left() == 0)
    return root, reader.is_compressed


def xlong(number: int) -> bytes:
    return bytes([number]) if number <= 254 else b"\xff" + number.to_bytes(4, "big")


def of_immediate(word: int) -> bytes:
    code = character(word)
    if word == NIL:
        return b"\x0a"
    if code is None:
        return b"\x00" + xlong(word)
    return bytes([1, code]) if code < 256 else b"\x02" + code.to_bytes(2, "big")


def in_full(node: Ref, text: Callable, data: bytes) -> bytes:
    """A node by its own tag, with a text for each of its references and for its bytes."""
    parts = b"".join(map(text, node.parts()))
    if isinstance(node, Symbol):
        return b"\x07" + xlong(len(node.name)) + node.name
    if isinstance(node, String):
        return b"\x08" + xlong(node.size()) + b"".join(it.to_bytes(2, "big") for it in [*node.units, 0])
    if isinstance(node, Large):
        return b"\x0c" + parts + b"\x00" + len(data).to_bytes(4, "big") + bytes(12) + data
    if isinstance(node, Binary):
        return b"\x03" + xlong(len(data)) + parts + data
    if isinstance(node, Frame):
        return b"\x06" + xlong(len(node.tags)) + parts
    return (b"\x05" if node.kind is None else b"\x04") + xlong(len(node.values)) + parts


def numbered(root: Ref, whole: Callable) -> bytes:
    """A text in which a node that was written before stands by its number, and any other as `whole` writes it."""
    numbers: dict[int, int] = {}

    def text(node: Ref) -> bytes:
        if isinstance(node, int):
            return of_immediate(node)
        if id(node) in numbers:
            return b"\x09" + xlong(numbers[id(node)])
        numbers[id(node)] = len(numbers)
        return whole(node, text)

    return b"\x02" + text(root)


def encode_flat(root: Ref, is_skeleton: bool = False) -> bytes:
    """The flat text of a graph; in that of its skeleton the large binaries are empty."""

    def whole(node: Ref, text: Callable) -> bytes:
        is_empty = is_skeleton and isinstance(node, Large)
        return in_full(node, text, b"" if is_empty else getattr(node, "data", b""))

    return numbered(root, whole)


def small_sides(node: Ref, places: dict[int, int]) -> Optional[bytes]:
    """The four sides of a frame that is small among the nodes of a walk, each at its place."""
    if not isinstance(node, Frame) or len(node.tags) != 4:
        return None
    if not all(is_same_name(tag.name, side) for tag, side in zip(node.tags, SIDES)):
        return None
    sides = [integer(it) for it in node.values]
    if not all(it is not None and 0 <= it <= 255 for it in sides):
        return None
    is_known = [places[id(tag)] < places[id(node)] or tag.name == tag.name.lower() for tag in node.tags]
    return bytes(sides) if all(is_known) else None


def encode(root: Ref) -> bytes:
    """The written text of a graph: small frames by their four sides, numbers to what is written alone."""
    places = Walk(root).numbers

    def whole(node: Ref, text: Callable) -> bytes:
        sides = small_sides(node, places)
        return in_full(node, text, getattr(node, "data", b"")) if sides is None else b"\x0b" + sides

    return numbered(root, whole)


def pages(length: int) -> int:
    """How many pages an object of so many bytes takes."""
    return max(1, -(-length // 500))


def entry_cost(graph: Ref) -> int:
    """How many pages an entry takes: its record, and each of its large binaries."""
    larges = Walk(graph).larges()
    record = 12 + len(encode_flat(graph, is_skeleton=True)) + 12 * len(larges)
    return pages(record) + sum(pages(len(it.data)) for it in larges)
