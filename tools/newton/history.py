"""What the records of a card made of it, one after the other: each version of each entry and of the directory."""

import struct
from dataclasses import dataclass, field
from typing import Iterable, Iterator, NamedTuple, Optional

from newton.image import PART, Bank, Image, Kind, Page, Record, begins_entry

from graphs import MOST_BYTES, Frame, Walk
from images import NoStore
from images import Record as Fields
from stores import Soup
from streams import Malformed, pages
from streams import Reader as Stream

ENTRY_HEAD = struct.Struct(">HHII")
PLACE = struct.Struct(">III")
ROOM = 4  # times the size of the image


class LargeAt(NamedTuple):
    """A large binary that an entry names: its object, its length, and the page of each part, if there is one."""

    object: int
    length: int
    parts: tuple[Optional[Page], ...]
    borrowed: int  # how many of the pages are of another time, since those of this time are gone

    def missing(self) -> int:
        return sum(it is None for it in self.parts)


@dataclass(eq=False)
class Version:
    """An entry as one record left it."""

    sig: int
    uid: int
    time: int
    text: bytes  # of its skeleton
    skeleton: Frame
    bank: int
    record: Record
    pages: tuple[Page, ...]
    larges: tuple[LargeAt, ...]
    ended: Optional[Record] = None
    is_replaced: bool = False  # where it ended: by another version, which may be none that can be read
    copies: list["Version"] = field(default_factory=list)  # the same, in the other bank

    @property
    def key(self) -> tuple[int, int]:
        return self.sig, self.uid

    def all_pages(self) -> list[Page]:
        return [*self.pages, *(it for large in self.larges for it in large.parts if it)]

    def missing(self) -> int:
        return sum(it.missing() for it in self.larges)

    def is_finished(self) -> bool:
        return self.record.kind is not Kind.OPEN


def size_of(version: Version) -> int:
    """The bytes of the record of an entry and of its large binaries."""
    return ENTRY_HEAD.size + len(version.text) + sum(PLACE.size + it.length for it in version.larges)


@dataclass
class Directory:
    """What is read of a directory, from its front on."""

    name: bytes
    sig: int
    next_soup: int
    soups: list[Soup]
    is_whole: bool
    bank: int
    record: Record


def read_directory(data: bytes, is_complete: bool, version: int, bank: int, record: Record) -> Optional[Directory]:
    text = Fields(data)
    try:
        found = Directory(text.name(), text.number(4), text.number(2), [], False, bank, record)
        count = text.number(1)
    except NoStore:
        return None
    try:
        for _ in range(count):
            found.soups.append(text.soup(version))
        found.is_whole = is_complete and text.left() == 0
    except NoStore:
        pass
    return found


class Text(NamedTuple):
    """The record of an entry, as far as its own bytes tell."""

    sig: int
    uid: int
    time: int
    skeleton: bytes
    graph: Frame
    named: tuple[tuple[int, int], ...]  # the object and the length of each large binary


def read_text(data: bytes) -> Optional[Text]:
    """The record of an entry that bytes begin with."""
    if len(data) < ENTRY_HEAD.size:
        return None
    sig, _, uid, time = ENTRY_HEAD.unpack_from(data)
    stream = Stream(data[ENTRY_HEAD.size :])
    try:
        stream.wants(stream.number(1) == 2)
        graph = stream.object(0)
        stream.wants(isinstance(graph, Frame))
    except Malformed:
        return None
    skeleton = data[ENTRY_HEAD.size : ENTRY_HEAD.size + stream.at]
    count = len(Walk(graph).larges()) if b"\x0c" in skeleton else 0
    places = data[ENTRY_HEAD.size + stream.at :][: 12 * count]
    named = [(number, length) for _, number, length in PLACE.iter_unpack(places[: len(places) // 12 * 12])]
    return Text(sig, uid, time, skeleton, graph, tuple(named)) if len(named) == count else None


class State:
    """The pages at one time, by number and by object."""

    def __init__(self, pages_then: Iterable[Page] = ()) -> None:
        self.by_number: dict[int, Page] = {}
        self.by_object: dict[int, dict[int, list[Page]]] = {}
        for page in pages_then:
            self.put(page)

    def remove(self, number: int) -> Optional[int]:
        """Removes a page, and answers the object that it was of."""
        page = self.by_number.pop(number, None)
        if page is None:
            return None
        parts = self.by_object[page.object]
        parts[page.part].remove(page)
        if not parts[page.part]:
            del parts[page.part]
        return page.object

    def put(self, page: Page) -> None:
        self.by_number[page.number] = page
        self.by_object.setdefault(page.object, {}).setdefault(page.part, []).append(page)

    def apply(self, record: Record) -> set[int]:
        """The objects that a record touches. Its new pages stand beside what it removes, so it removes first."""
        gone = [self.remove(number) for number in (*record.deletes, *(it.number for it in record.puts))]
        for page in record.puts:
            self.put(page)
        return {it for it in gone if it is not None} | {it.object for it in record.puts}

    def parts(self, number: int, length: Optional[int] = None) -> tuple[Optional[Page], ...]:
        """The newest page of each part of an object, as long as it is or as its newest first page says."""
        found = self.by_object.get(number, {})
        if length is None:
            newest = max((it[-1] for it in found.values()), key=lambda it: it.place, default=None)
            length = newest.length if newest else 0
        fitting = ((it for it in reversed(found.get(part, [])) if it.length == length) for part in range(pages(length)))
        return tuple(next(it, None) for it in fitting)


class History:
    """Reads the records of the banks, the older bank first."""

    def __init__(self, image: Image):
        self.image = image.data
        self.versions: list[Version] = []
        self.directories: list[Directory] = []
        self.unread: list[tuple[int, int, Page]] = []  # bank, object and first page of what is no entry
        self.state = State()
        self.holders: dict[int, list[Version]] = {}
        self.owners: dict[int, set[int]] = {}
        self.texts: dict[bytes, Optional[Text]] = {}
        self.by_part: dict[tuple[int, int, int], list[Page]] = {}
        self.larges: dict[LargeAt, LargeAt] = {}
        # What large binaries claim to be together is bounded, since a page may claim any length.
        self.room = ROOM * len(image.data)
        for bank in image.banks:
            for page in (page for record in bank.records for page in record.puts):
                self.by_part.setdefault((page.object, page.length, page.part), []).append(page)

    def text_of(self, data: bytes) -> Optional[Text]:
        if data not in self.texts:
            self.texts[data] = read_text(data)
        return self.texts[data]

    def joined(self, parts: tuple[Optional[Page], ...]) -> bytes:
        return b"".join(it.data(self.image) if it else bytes(PART) for it in parts)

    def whole_parts(self, number: int) -> list[tuple[Page, ...]]:
        """The pages of an object, or of each of several that have one page and the same number."""
        first = self.state.by_object.get(number, {}).get(0, [])
        if len(first) > 1 and all(it.length <= PART for it in first):
            return [(it,) for it in first]
        parts = self.state.parts(number)
        if parts and all(parts):
            return [parts]
        # A length that is damaged asks for parts that never were.
        return [(it,) for it in first]

    def large(self, number: int, length: int) -> LargeAt:
        """A large binary, with what is missing of it now taken from wherever such a part is found."""
        if length > MOST_BYTES:
            return LargeAt(number, 0, (), 0)
        parts, borrowed = list(self.state.parts(number, length)), 0
        for part, page in enumerate(parts):
            if page is None:
                parts[part] = next(reversed(self.by_part.get((number, length, part), [])), None)
                borrowed += parts[part] is not None
        return self.within_room(LargeAt(number, length, tuple(parts), borrowed))

    def within_room(self, large: LargeAt) -> LargeAt:
        """A large binary, or an empty one where there is no room for it; the same one where it was met before."""
        if large not in self.larges:
            self.room -= large.length
            self.larges[large] = large if self.room >= 0 else LargeAt(large.object, 0, (), 0)
        return self.larges[large]

    def entries_at(self, bank: Bank, record: Record, number: int) -> Iterator[Version]:
        """The entries that an object is now."""
        for parts in self.whole_parts(number):
            text = self.text_of(self.joined(parts))
            if text is None:
                self.unread.append((bank.number, number, parts[0]))
                continue
            larges = tuple(self.large(*it) for it in text.named)
            for large in larges:
                self.owners.setdefault(large.object, set()).add(number)
            yield Version(*text[:5], bank.number, record, parts, larges)

    def note_directory(self, bank: Bank, record: Record) -> None:
        parts = self.state.parts(0)
        known = parts[: next((at for at, it in enumerate(parts) if it is None), len(parts))]
        data = self.joined(known)[: known[0].length if known else 0]
        found = read_directory(data, len(known) == len(parts), bank.version or 2, bank.number, record)
        if found is not None:
            self.directories.append(found)

    def renew(self, bank: Bank, record: Record, touched: set[int]) -> None:
        """Notes the entries that a record made, and ends those that it changed or removed."""
        made: dict[int, list[Version]] = {}
        # Entries come first, since they tell which objects are large binaries.
        for number in sorted(touched, key=lambda it: (it > 0 and it % 2 == 0, it)):
            if number % 2 or number < 0 or self.is_entry(number):
                made[number] = list(self.entries_at(bank, record, number))
                self.versions += made[number]
        if record.kind is Kind.OPEN:
            return
        keys = {it.key for found in made.values() for it in found}
        for number, found in made.items():
            for old in self.holders.get(number, []):
                old.ended, old.is_replaced = record, old.key in keys or bool(self.state.by_object.get(number))
            self.holders[number] = found

    def is_entry(self, number: int) -> bool:
        """Whether an object with an even id is an entry whose id is damaged, or was one."""
        first = self.state.by_object.get(number, {}).get(0, [])
        likely = number > 0 and any(begins_entry(self.image, it) for it in first)
        return number in self.holders or likely and number not in self.owners

    def play(self, bank: Bank) -> None:
        for record in bank.records:
            before = dict(self.state.by_number) if record.kind is Kind.OPEN else None
            touched = self.state.apply(record)
            if 0 in touched:
                self.note_directory(bank, record)
            larges = [it for it in touched if it in self.owners]
            self.renew(bank, record, touched | {owner for it in larges for owner in self.owners[it]})
            if before is not None:
                self.state = State(before.values())

    def forget(self) -> None:
        """Begins the next bank from nothing, and not on what the last one left."""
        self.state, self.holders, self.owners = State(), {}, {}

    def live(self) -> list[Version]:
        return [it for found in self.holders.values() for it in found]
