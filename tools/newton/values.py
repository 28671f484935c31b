"""Values that the forms for data share: texts, reals, and what a graph has to keep."""

import struct
from math import isfinite
from typing import NamedTuple, Optional

from graphs import (
    LEAST_INTEGER,
    MOST_INTEGER,
    Binary,
    Frame,
    Large,
    Ref,
    String,
    Symbol,
    Walk,
    word_of_integer,
)
from streams import NAME

from newton.run import Failed

REAL = b"real"


class NoValue(Failed):
    """What was given says no value."""


class Given(NamedTuple):
    """An entry that is to be added, its minute where one is given, and where it stands."""

    graph: Frame
    time: Optional[int]
    place: str


def wants(holds: object, reason: str) -> None:
    if not holds:
        raise NoValue(reason)


def text_of(string: String) -> str:
    """The characters of a string. A unit of a pair that stands alone stays one, as Python has it."""
    data = b"".join(it.to_bytes(2, "big") for it in string.units)
    return data.decode("utf-16-be", "surrogatepass")


def is_writable(text: str) -> bool:
    """Whether a text can be written in UTF-8."""
    return not any(0xD800 <= ord(it) <= 0xDFFF for it in text)


def integer_word(number: int) -> int:
    wants(LEAST_INTEGER <= number <= MOST_INTEGER, f"{number} is no integer of a Newton")
    return word_of_integer(number)


def real_of(value: Ref) -> Optional[float]:
    """The number of a binary that is a real: eight bytes of the class `real`, as a Newton has them."""
    if isinstance(value, Large) or not isinstance(value, Binary):
        return None
    if value.kind.name != REAL or len(value.data) != 8:
        return None
    number = struct.unpack(">d", value.data)[0]
    return number if isfinite(number) else None


def real_data(number: float) -> bytes:
    wants(isfinite(number), f"{number} is no finite number")
    return struct.pack(">d", number)


def is_slot_name(name: str) -> bool:
    return bool(NAME.fullmatch(name.encode(errors="surrogatepass")))


class Symbols:
    """The symbols of one graph: names that are equal without case are one, with the first spelling."""

    def __init__(self) -> None:
        self.known: dict[bytes, Symbol] = {}

    def of(self, name: str) -> Symbol:
        wants(isinstance(name, str), f"{name} is no name")
        wants(is_slot_name(name), f"{name!r} is no name: 1 to 254 characters from the space to the tilde")
        encoded = name.encode()
        return self.known.setdefault(encoded.lower(), Symbol(encoded))


def wants_entry(root: Ref) -> Frame:
    wants(isinstance(root, Frame), "an entry is a frame")
    wants(Walk(root).keeps_limits(), "it passes a limit of one graph (docs/FORMATS.md)")
    return root
