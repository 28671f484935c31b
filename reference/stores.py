"""Stores, soups and entries as plain values, the bytes of a store's directory, and what a store costs.

A change makes a new value.
"""

from dataclasses import dataclass, replace
from typing import NamedTuple, Optional

from graphs import Frame, Ref
from streams import encode_flat, entry_cost, pages

KINDS = ("string", "int", "char", "symbol")
ORDERS = ("ascend", "descend")
MOST_SIGNATURE = 536_870_911
MOST_SOUP_SIGNATURE = 65_535
MOST_SOUPS, MOST_INDEXES, MOST_TAGS = 250, 16, 64
MOST_NAME, MOST_PATH = 39, 8
MOST_OLD_SOUPS = 64  # in a directory of version 1

MOST_SKELETON, MOST_INFO = 64_000, 4_000
LEAST_BLOCKS, MOST_BLOCKS = 13, 4099  # of a unit

Path = tuple


class Part(NamedTuple):
    path: Path
    kind: str
    order: str


class Tags(NamedTuple):
    path: Path
    symbols: tuple


class Entry(NamedTuple):
    uid: int
    time: int
    graph: Ref
    cost: int


@dataclass(frozen=True)
class Soup:
    name: bytes
    sig: int
    next_uid: int = 0
    specs: tuple = ()
    tags: Optional[Tags] = None
    info: Optional[Frame] = None
    entries: tuple = ()

    def entry(self, uid: int) -> Optional[Entry]:
        return next((it for it in self.entries if it.uid == uid), None)

    def with_entry(self, entry: Entry) -> "Soup":
        """The soup with an entry in the place of the one of its id, or after the others."""
        kept = [it for it in self.entries if it.uid < entry.uid]
        after = [it for it in self.entries if it.uid > entry.uid]
        return replace(self, entries=(*kept, entry, *after), next_uid=max(self.next_uid, entry.uid + 1))

    def without_entry(self, uid: int) -> "Soup":
        return replace(self, entries=tuple(it for it in self.entries if it.uid != uid))


@dataclass(frozen=True)
class Store:
    name: bytes
    sig: int
    next_soup: int = 0
    soups: tuple = ()

    def soup(self, name: bytes) -> Optional[Soup]:
        return next((it for it in self.soups if it.name == name), None)

    def with_soup(self, soup: Soup) -> "Store":
        """The store with a soup in the place of the one of its signature."""
        return replace(self, soups=tuple(soup if it.sig == soup.sig else it for it in self.soups))


def entry_of(uid: int, time: int, graph: Ref) -> Entry:
    return Entry(uid, time, graph, entry_cost(graph))


def is_name(text: bytes) -> bool:
    """Whether a text can be the name of a store or a soup."""
    return 1 <= len(text) <= MOST_NAME and all(32 <= it <= 126 for it in text)


def folded(paths) -> tuple:
    """Paths as they are compared, without regard to case."""
    return tuple(tuple(name.lower() for name in path) for path in paths)


def paths_of(spec: tuple) -> tuple:
    return folded(part.path for part in spec)


def text(of: bytes) -> bytes:
    return bytes([len(of)]) + of


def path_bytes(path: Path) -> bytes:
    return bytes([len(path)]) + b"".join(map(text, path))


def index_bytes(spec: tuple) -> bytes:
    parts = [bytes([KINDS.index(it.kind), ORDERS.index(it.order)]) + path_bytes(it.path) for it in spec]
    return bytes([len(parts)]) + b"".join(parts)


def tags_bytes(tags: Optional[Tags]) -> bytes:
    if tags is None:
        return b""
    return path_bytes(tags.path) + bytes([len(tags.symbols)]) + b"".join(map(text, tags.symbols))


def info_bytes(info: Optional[Frame]) -> bytes:
    if info is None:
        return b""
    written = encode_flat(info)
    return len(written).to_bytes(2, "big") + written


def soup_bytes(soup: Soup) -> bytes:
    """The soup in a directory of version 2. Without info it is the same in version 1."""
    start = text(soup.name) + soup.sig.to_bytes(2, "big") + soup.next_uid.to_bytes(4, "big")
    flags = (soup.tags is not None) + 2 * (soup.info is not None)
    indexes = bytes([len(soup.specs)]) + b"".join(map(index_bytes, soup.specs))
    return start + indexes + bytes([flags]) + tags_bytes(soup.tags) + info_bytes(soup.info)


def directory(store: Store) -> bytes:
    start = text(store.name) + store.sig.to_bytes(4, "big") + store.next_soup.to_bytes(2, "big")
    return start + bytes([len(store.soups)]) + b"".join(map(soup_bytes, store.soups))


def cost(store: Store) -> int:
    return pages(len(directory(store))) + sum(entry.cost for soup in store.soups for entry in soup.entries)


def capacity(blocks: int) -> int:
    """How many pages a unit of so many blocks has room for."""
    return (4096 * ((blocks - 3) // 2) - 16) // 525
