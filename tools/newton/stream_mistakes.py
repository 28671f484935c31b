"""Where bytes stop to be a stream, and why.

What is a stream says `streams` of the reference alone: its reader is run, and where it gives up the reason is looked
for. `docs/FORMATS.md`, section 1, has the grammar.
"""

import re
from typing import Optional

from graphs import MOST_BYTES, MOST_BYTES_TOGETHER, MOST_NODES, MOST_OPEN, Symbol
from streams import Malformed, Reader

from newton.mistakes import Mistake, Placed, Telling


class Found(Placed, Malformed):
    """The bytes spell no graph, and the place is known."""


class Pointing(Telling, Reader):
    """The reader of streams, which tells where it gives up."""

    placed = Found

    def __init__(self, stream: bytes):
        super().__init__(stream)
        self.compressed_at: Optional[int] = None
        self.object_at = 0
        self.symbols_at: list[tuple[Symbol, int]] = []

    def take(self, count: int) -> bytes:
        if count > self.left():
            more = count - self.left()
            raise Found(len(self.text), f"the stream ends {more} byte{'s' * (more > 1)} too early")
        return super().take(count)

    def byte(self) -> int:
        return self.take(1)[0]

    def count(self, most: int) -> int:
        at = self.at
        return self.told(lambda: super(Pointing, self).count(most), lambda: (at, f"no count from 0 to {most}"))

    def met(self, node, is_numbered: bool = True):
        at, reason = self.object_at, f"one object too many: a graph has at most {MOST_NODES}"
        return self.told(lambda: super(Pointing, self).met(node, is_numbered), lambda: (at, reason))

    def data(self, count: int) -> bytes:
        reason = f"more than {MOST_BYTES} bytes, or more than {MOST_BYTES_TOGETHER} with those before"
        at = self.object_at
        return self.told(lambda: super(Pointing, self).data(count), lambda: (at, reason))

    def precedent(self):
        at = self.at
        reason = f"no object has this number: {len(self.numbered)} were met before"
        return self.told(super().precedent, lambda: (at, reason))

    def named(self, name: bytes, is_numbered: bool) -> Symbol:
        def reason() -> tuple[int, str]:
            bad = next((at for at, it in enumerate(name) if not 32 <= it <= 126), None)
            if bad is None:
                return self.at - len(name), "a name has 1 to 254 bytes"
            return self.at - len(name) + bad, "the bytes of a name are from 20 to 7E"

        return self.told(lambda: super(Pointing, self).named(name, is_numbered), reason)

    def symbol(self) -> Symbol:
        at = self.at
        is_precedent = self.text[at : at + 1] == b"\x09"
        reason = "the object of this number is no symbol"
        reason = reason if is_precedent else "a class and the name of a slot begin with the tag 07 or 09"
        self.object_at = at
        symbol = self.told(super().symbol, lambda: (at + is_precedent, reason))
        self.symbols_at.append((symbol, at))
        return symbol

    def container(self, node, is_open: int):
        at, reason = self.object_at, f"{MOST_OPEN} arrays and frames are open here already"
        return self.told(lambda: super(Pointing, self).container(node, is_open), lambda: (at, reason))

    def string(self):
        at, before = self.at, self.nodes

        def reason() -> tuple[int, str]:
            if self.nodes > before:
                return self.at - 2, "a string ends with two bytes 00"
            return at, "the byte count of a string is even, and at least 2"

        return self.told(super().string, reason)

    def large(self):
        at, was = self.at, self.is_compressed
        large = self.told(super().large, lambda: (self.at - 16, f"a large binary has at most {MOST_BYTES} bytes"))
        if self.is_compressed and not was:
            self.compressed_at = at - 1
        return large

    def immediate(self) -> int:
        at, reason = self.at, "the low bits of this word are 01: that is a pointer, and no value"
        return self.told(super().immediate, lambda: (at, reason))

    def object(self, is_open: int):
        at, first = self.at, len(self.symbols_at)
        self.object_at = at

        def reason() -> tuple[int, str]:
            known: list = []
            for tag, place in self.symbols_at[first:]:
                if any(it is tag for it in known):
                    return place, f"the frame has the slot {tag.name.decode()} already"
                known.append(tag)
            return at, "tags are from 00 to 0C"

        return self.told(lambda: super(Pointing, self).object(is_open), reason)


def mistake_in(stream: bytes) -> Optional[Mistake]:
    """The mistake in bytes that are to be a stream, if there is one."""
    if stream[:1] != b"\x02":
        return Mistake(0, "a stream begins with the byte 02")
    reader = Pointing(stream)
    reader.at = 1
    try:
        reader.object(0)
    except Found as found:
        return found.mistake
    if reader.left():
        return Mistake(reader.at, "the stream ends before this")
    if reader.compressed_at is not None:
        return Mistake(reader.compressed_at, "this large binary is marked as compressed")
    return None


def bad_digit(text: str) -> Optional[Mistake]:
    """Why a text is no bytes in hexadecimal digits, if it is none."""
    bad = re.search("[^0-9A-Fa-f]", text)
    if bad:
        return Mistake(bad.start(), f"{bad[0]!r} is no hexadecimal digit")
    return Mistake(len(text) - 1, "the number of digits is odd") if len(text) % 2 else None


def mistake_in_digits(text: str) -> Optional[Mistake]:
    """The mistake in hexadecimal digits of a stream. Places count digits."""
    bad = bad_digit(text)
    found = None if bad else mistake_in(bytes.fromhex(text))
    return found and Mistake(2 * found.place, found.reason) or bad
