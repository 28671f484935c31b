"""The world that commands are answered in: units with their stores, which are mounted, the minute, and cursors."""

from dataclasses import dataclass, field
from functools import cmp_to_key
from typing import Iterator, Optional, Union

from queries import Hit, Query, compare, key_of, passes
from replies import Refused
from graphs import Ref
from stores import LEAST_BLOCKS, MOST_BLOCKS, Entry, Soup, Store, capacity, cost, paths_of

UNITS = 8
MOST_MOUNTED = 4
CURSORS, WATCHES, COPIES = 32, 8, 16
START, FINISH = "start", "finish"

# A key and an identity, where a cursor is on one.
Place = Union[str, tuple]


@dataclass
class Unit:
    blocks: int
    store: Optional[Store] = None


@dataclass
class Cursor:
    query: Query
    place: Place


@dataclass
class Watch:
    """All notes of the soups of a name since they were asked for last, and how many are told."""

    name: bytes
    most: int
    notes: list[str] = field(default_factory=list)


@dataclass
class Copy:
    """An entry that is edited apart: its alias, its time and graph when it was read, and the draft."""

    alias: tuple[int, int, int]
    time: int
    base: Ref
    draft: Ref


class World:
    def __init__(self, units: list[Unit]):
        self.units: list[Optional[Unit]] = [*units, *[None] * (UNITS - len(units))]
        self.mounted: set[int] = set()
        self.default: Optional[int] = None
        self.minute = 0
        self.cursors: list[Optional[Cursor]] = [None] * CURSORS
        self.watches: list[Optional[Watch]] = [None] * WATCHES
        self.copies: list[Optional[Copy]] = [None] * COPIES
        self.events: list[tuple[bytes, str]] = []

    # What a command speaks of, or the refusal where it is not there.

    def attached(self, *numbers: int) -> Unit:
        if any(self.units[it] is None for it in numbers):
            raise Refused(20)
        return self.units[numbers[0]]

    def with_blocks(self, number: int) -> Unit:
        unit = self.attached(number)
        if not LEAST_BLOCKS <= unit.blocks <= MOST_BLOCKS:
            raise Refused(27)
        if number in self.mounted:
            raise Refused(21)
        return unit

    def store(self, *numbers: int) -> Store:
        self.attached(*numbers)
        if any(it not in self.mounted for it in numbers):
            raise Refused(25)
        return self.units[numbers[0]].store

    def soup(self, number: int, name: bytes) -> Soup:
        soup = self.store(number).soup(name)
        if soup is None:
            raise Refused(30)
        return soup

    def entry(self, number: int, name: bytes, uid: int) -> tuple[Soup, Entry]:
        soup = self.soup(number, name)
        entry = soup.entry(uid)
        if entry is None:
            raise Refused(32)
        return soup, entry

    def cursor(self, number: int) -> Cursor:
        cursor = self.cursors[number]
        if cursor is None:
            raise Refused(42)
        return cursor

    def watch(self, number: int) -> Watch:
        watch = self.watches[number]
        if watch is None:
            raise Refused(47)
        return watch

    def copy(self, number: int) -> Copy:
        copy = self.copies[number]
        if copy is None:
            raise Refused(46)
        return copy

    def living(self, alias: tuple[int, int, int]) -> tuple[int, Soup, Entry]:
        """The entry that an alias leads to, with its unit and soup."""
        store_sig, soup_sig, uid = alias
        for number in sorted(self.mounted):
            store = self.units[number].store
            for soup in store.soups if store.sig == store_sig else ():
                entry = soup.entry(uid) if soup.sig == soup_sig else None
                if entry is not None:
                    return number, soup, entry
        raise Refused(32)

    def free(self, places: list) -> int:
        free = [at for at, it in enumerate(places) if it is None]
        if not free:
            raise Refused(36)
        return free[0]

    def keep(self, number: int, store: Store) -> None:
        """Puts a changed store in the place of the unit's, where there is room for it."""
        if cost(store) > capacity(self.units[number].blocks):
            raise Refused(33)
        self.units[number].store = store

    # Notes.

    def note(self, kind: str, number: int, soup: Soup, uid: Optional[int] = None) -> None:
        """What a command has done to a soup."""
        told = [kind, number, soup.sig] + ([] if uid is None else [uid])
        self.events.append((soup.name, " ".join(map(str, told))))

    def tell(self) -> None:
        """Appends what was done to the watches of the soups' names."""
        for watch in filter(None, self.watches):
            watch.notes += [note for name, note in self.events if name == watch.name]
        self.events = []

    # Hits and cursors.

    def members(self, query: Query) -> Iterator[tuple[int, Store, Soup]]:
        """The soups that a query takes, by unit, whether they have its index or not."""
        for number in sorted(self.mounted):
            store = self.units[number].store
            soup = store.soup(query.name)
            if soup is not None and query.scope in (None, store.sig):
                yield number, store, soup

    def found(self, query: Query, identity: Optional[tuple] = None) -> Iterator[Hit]:
        """The entries that a query finds, or the one of them that has this identity."""
        for number, store, soup in self.members(query):
            if query.spec is not None and not any(is_carried(query.spec, it) for it in soup.specs):
                continue
            for entry in soup.entries:
                if identity not in (None, (store.sig, soup.sig, entry.uid)):
                    continue
                key = key_of(entry.graph, query.spec)
                if key is not None and passes(query, soup, entry.graph, key):
                    yield Hit(key, (store.sig, soup.sig, entry.uid), number, entry)

    def hits(self, query: Query) -> list[Hit]:
        """The entries that a query finds, in order."""
        return sorted(self.found(query), key=cmp_to_key(lambda one, other: order(query, one[:2], other[:2])))

    def next(self, query: Query, place: Place) -> Place:
        after = [
            it[:2] for it in self.hits(query) if place == START or place != FINISH and order(query, it[:2], place) > 0
        ]
        return after[0] if after else FINISH

    def previous(self, query: Query, place: Place) -> Place:
        before = [
            it[:2] for it in self.hits(query) if place == FINISH or place != START and order(query, it[:2], place) < 0
        ]
        return before[-1] if before else START

    def hit_at(self, cursor: Cursor) -> Optional[Hit]:
        """The hit that a cursor is on."""
        if cursor.place in (START, FINISH):
            return None
        return next(self.found(cursor.query, cursor.place[1]), None)

    def settle(self) -> None:
        """Gives each cursor on a hit the key that the hit has now."""
        for cursor in self.cursors:
            hit = self.hit_at(cursor) if cursor else None
            if hit:
                cursor.place = hit[:2]


def is_carried(spec: tuple, other: tuple) -> bool:
    kinds = [(it.kind, it.order) for it in spec]
    return paths_of(spec) == paths_of(other) and kinds == [(it.kind, it.order) for it in other]


def order(query: Query, one: tuple, other: tuple) -> int:
    """How a key with an identity stands to another one."""
    return compare(one[0], other[0], query.spec) or (one[1] > other[1]) - (one[1] < other[1])
