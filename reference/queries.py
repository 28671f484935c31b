"""Keys and their order, what the frame of a query asks, and which entries it lets pass."""

from dataclasses import dataclass, field
from typing import NamedTuple, Optional

from graphs import NIL, TRUE, Array, Frame, Ref, String, Symbol, Walk, character, integer, is_same_name, value_at
from replies import Refused
from stores import Entry, Path, Soup

KEY_UNITS = 39
BOUNDS = {
    b"beginKey": lambda order: order >= 0,
    b"beginExclKey": lambda order: order > 0,
    b"endKey": lambda order: order <= 0,
    b"endExclKey": lambda order: order < 0,
}
SLOTS = (b"indexPath", *BOUNDS, b"tagSpec", b"words", b"text", b"entireWords")
TAG_SLOTS = {
    b"equal": lambda has, given: has == given,
    b"all": lambda has, given: given <= has,
    b"any": lambda has, given: bool(given & has),
    b"none": lambda has, given: not given & has,
}


def decoded(units: list[int]) -> str:
    """The text of 16-bit units, lone surrogates replaced."""
    text, at = "", 0
    while at < len(units):
        unit, after = units[at], units[at + 1] if at + 1 < len(units) else 0
        if 0xD800 <= unit < 0xDC00 <= after < 0xE000:
            text += chr(0x10000 + ((unit - 0xD800) << 10) + (after - 0xDC00))
            at += 2
        else:
            text += "\ufffd" if 0xD800 <= unit < 0xE000 else chr(unit)
            at += 1
    return text


def key_part(value: Optional[Ref], kind: str):
    """The part of a key that a value gives, or nothing where it is of another kind."""
    if kind == "int":
        return integer(value)
    if kind == "char":
        return character(value)
    if kind == "symbol":
        return value.name.lower() if isinstance(value, Symbol) else None
    return decoded(value.units[:KEY_UNITS]).casefold() if isinstance(value, String) else None


def key_of(graph: Ref, spec: Optional[tuple]) -> Optional[tuple]:
    """The key of an entry: that of no index is empty, and an entry without the first part has none."""
    if spec is None:
        return ()
    key = tuple(key_part(value_at(graph, part.path), part.kind) for part in spec)
    return None if key[0] is None else key


def key_from(value: Ref, spec: Optional[tuple]) -> tuple:
    """The key that a value writes down."""
    if spec is None:
        raise Refused(43)
    values = [value]
    if len(spec) > 1:
        if not isinstance(value, Array) or value.kind is not None or not 1 <= len(value.values) <= len(spec):
            raise Refused(43)
        values = value.values
    parts = [key_part(it, part.kind) for it, part in zip(values, spec)]
    is_nil = [isinstance(it, int) and it == NIL for it in values]
    if parts[0] is None or any(part is None and not nil for part, nil in zip(parts, is_nil)):
        raise Refused(43)
    return (*parts, *[None] * (len(spec) - len(parts)))


def compare(one: tuple, other: tuple, spec: Optional[tuple]) -> int:
    """Below, at or above 0, as a key stands before another one, with it or after it."""
    for left, right, part in zip(one, other, spec or ()):
        if left == right:
            continue
        if left is None or right is None:
            return -1 if left is None else 1
        return -1 if (left < right) == (part.order == "ascend") else 1
    return 0


@dataclass
class Shape:
    """What the frame of a query asks."""

    paths: Optional[list[Path]] = None
    keys: dict = field(default_factory=dict)
    tags: dict = field(default_factory=dict)
    words: list[str] = field(default_factory=list)
    texts: list[str] = field(default_factory=list)
    is_entire: bool = False


@dataclass(frozen=True)
class Query:
    scope: Optional[int]
    name: bytes
    spec: Optional[tuple]
    bounds: dict
    shape: Shape


class Hit(NamedTuple):
    key: tuple
    identity: tuple
    unit: int
    entry: Entry


def wants(holds) -> None:
    if not holds:
        raise Refused(41)


def given_slots(frame: Ref, names) -> dict:
    """The slots of a frame that are not nil, by the names that a table has for them."""
    wants(isinstance(frame, Frame))
    slots = {}
    for tag, value in zip(frame.tags, frame.values):
        if isinstance(value, int) and value == NIL:
            continue
        known = [name for name in names if is_same_name(name, tag.name)]
        wants(known)
        slots[known[0]] = value
    return slots


def one_path(value: Ref) -> Path:
    if isinstance(value, Symbol):
        return (value.name,)
    wants(isinstance(value, Array) and value.kind is not None and is_same_name(value.kind.name, b"pathExpr"))
    wants(1 <= len(value.values) <= 8 and all(isinstance(it, Symbol) for it in value.values))
    return tuple(it.name for it in value.values)


def index_paths(value: Ref) -> list[Path]:
    if not isinstance(value, Array) or value.kind is not None:
        return [one_path(value)]
    wants(1 <= len(value.values) <= 4)
    return [one_path(it) for it in value.values]


def symbols(value: Ref) -> frozenset:
    items = value.values if isinstance(value, Array) else [value]
    wants(all(isinstance(it, Symbol) for it in items))
    return frozenset(it.name.lower() for it in items)


def strings(value: Ref) -> list[str]:
    items = value.values if isinstance(value, Array) else [value]
    wants(all(isinstance(it, String) and it.units for it in items))
    return [decoded(it.units).casefold() for it in items]


def read_shape(value: Ref) -> Shape:
    slots = given_slots(value, SLOTS)
    shape = Shape()
    shape.keys = {name: slots[name] for name in BOUNDS if name in slots}
    wants(len(shape.keys.keys() & {b"beginKey", b"beginExclKey"}) < 2)
    wants(len(shape.keys.keys() & {b"endKey", b"endExclKey"}) < 2)
    if b"indexPath" in slots:
        shape.paths = index_paths(slots[b"indexPath"])
    wants(shape.paths is not None or not shape.keys)
    if b"tagSpec" in slots:
        shape.tags = {name: symbols(it) for name, it in given_slots(slots[b"tagSpec"], TAG_SLOTS).items()}
    shape.words = strings(slots[b"words"]) if b"words" in slots else []
    shape.texts = strings(slots[b"text"]) if b"text" in slots else []
    wants(slots.get(b"entireWords", TRUE) == TRUE)
    shape.is_entire = b"entireWords" in slots
    return shape


def tags_of(soup: Soup, graph: Ref) -> set:
    """The tags of an entry, as far as its soup declares them."""
    if soup.tags is None:
        return set()
    value = value_at(graph, soup.tags.path)
    items = value.values if isinstance(value, Array) else [value]
    return {it.name.lower() for it in items if isinstance(it, Symbol)} & {it.lower() for it in soup.tags.symbols}


def is_word_character(text: str, at: int) -> bool:
    return 0 <= at < len(text) and (text[at].isascii() and text[at].isalnum() or ord(text[at]) > 127)


def has_word(text: str, word: str, is_entire: bool) -> bool:
    begins = [at for at in range(len(text)) if text.startswith(word, at)]
    return any(
        is_word_character(text, at)
        and not is_word_character(text, at - 1)
        and not (is_entire and is_word_character(text, at + len(word)))
        for at in begins
    )


def passes(query: Query, soup: Soup, graph: Ref, key: tuple) -> bool:
    shape = query.shape
    strings = [it for it in Walk(graph).nodes if isinstance(it, String)] if shape.texts or shape.words else []
    texts = [decoded(it.units).casefold() for it in strings]
    has = tags_of(soup, graph)
    return (
        all(BOUNDS[name](compare(key, bound, query.spec)) for name, bound in query.bounds.items())
        and all(TAG_SLOTS[name](has, given) for name, given in shape.tags.items())
        and all(any(it in text for text in texts) for it in shape.texts)
        and all(any(has_word(text, it, shape.is_entire) for text in texts) for it in shape.words)
    )
