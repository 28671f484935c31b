"""What lies in the image of a card, by place: votes, banks, records and pages, also where the card is damaged.

A record or a page is found by its own form. So it is found where the journal ends early before it, and where the votes
or the header of its bank are gone.
"""

import re
import struct
from dataclasses import dataclass, field
from enum import Enum
from typing import Iterator, NamedTuple, Optional

from graphs import MOST_BYTES, MOST_NODES
from images import BLOCK, VERSIONS
from stores import MOST_SKELETON
from streams import pages

PAGE, PART = 512, 500
PUT = 4 + PAGE
HEADER = 16
MOST_PAGE_NUMBERS = 65_536
LEAST_DIRECTORY, LEAST_ENTRY = 8, 15
MOST_ENTRY = 12 + MOST_SKELETON + 12 * MOST_NODES
RECORD_HEAD = struct.Struct(">BIHH")
PAGE_HEAD = struct.Struct(">IIII")
SKELETON = b"\x02\x06"  # the first bytes of the text of a frame

# Loosely a head of a record, and the number and the head of a page. What is found so is looked at more closely.
LIKE_RECORD = re.compile(rb".\x00(?!\x00{3})....(?!\x00{4})..", re.DOTALL)
LIKE_PAGE = re.compile(rb"(?!\x00{16})\x00\x00..\x00...\x00\x00[\x00-\x0f].\x00[\x00-\x0f]..", re.DOTALL)
USED = re.compile(rb"[^\xff]")
BLANK_RUN = re.compile(rb"\xff{64,}")


class Kind(Enum):
    """Where a record stands."""

    JOURNAL = "in the journal"
    PAST = "past the end of the journal"
    OPEN = "in a record that was never finished"
    LOOSE = "in no record"


class Page(NamedTuple):
    """A page that a record puts: the place of its number, after which its 512 bytes stand."""

    place: int
    number: int
    object: int
    part: int
    length: int

    def data(self, image: bytes) -> bytes:
        return image[self.place + 16 : self.place + PUT]


@dataclass
class Record:
    """A record, or pages one after the other without a head of one."""

    place: int
    end: int
    kind: Kind
    puts: list[Page] = field(default_factory=list)
    deletes: list[int] = field(default_factory=list)
    bad: list[int] = field(default_factory=list)  # the places of puts that are no pages

    def is_whole(self) -> bool:
        return not self.bad and self.kind is not Kind.LOOSE


@dataclass
class Bank:
    number: int
    start: int
    end: int
    version: Optional[int]
    records: list[Record] = field(default_factory=list)
    damage: list[tuple[int, int]] = field(default_factory=list)  # stretches in which nothing is found
    journal_end: int = 0


@dataclass
class Image:
    data: bytes
    blocks: int
    votes: list[int]
    banks: list[Bank]

    def chosen(self) -> Optional[int]:
        """The bank that the votes choose, as the program takes them."""
        most = [bank for bank in (0, 1) if self.votes.count(bank) >= 2] or self.votes[:1]
        return most[0] if most and most[0] in (0, 1) else None


def is_page(page: Page) -> bool:
    """Whether a page may be one of a store."""
    number, length = page.object, page.length
    least = LEAST_DIRECTORY if number == 0 else LEAST_ENTRY if number % 2 else 0
    most = MOST_ENTRY if number % 2 else MOST_BYTES
    return page.number < MOST_PAGE_NUMBERS and least <= length <= most and page.part < pages(length)


def page_at(image: bytes, place: int) -> Page:
    return Page(place, *PAGE_HEAD.unpack_from(image, place))


def begins_entry(image: bytes, page: Page) -> bool:
    """Whether the bytes of a page begin as those of an entry's record do."""
    return image.startswith(SKELETON, page.place + 16 + 12)


def counts_at(image: bytes, place: int, end: int) -> Optional[tuple[int, int, int]]:
    """The end, the puts and the deletes of a record, where its length and its counts agree."""
    if end - place < RECORD_HEAD.size:
        return None
    _, length, puts, deletes = RECORD_HEAD.unpack_from(image, place)
    fits = length == 4 + PUT * puts + 4 * deletes and length <= end - place - 5
    return (place + 5 + length, puts, deletes) if fits else None


def stray_page(image: bytes, page: Page) -> Optional[Page]:
    """A page whose head is damaged, as one of an object of its own, where an entry begins in it."""
    number = page.number if page.number < MOST_PAGE_NUMBERS else -page.place
    return Page(page.place, number, -page.place, 0, PART) if begins_entry(image, page) else None


def record_at(image: bytes, place: int, end: int) -> Optional[Record]:
    """The record at a place. Its gate is not looked at."""
    counts = counts_at(image, place, end)
    if counts is None:
        return None
    after, puts, deletes = counts
    record = Record(place, after, Kind.JOURNAL)
    first = place + RECORD_HEAD.size
    for at in range(first, first + PUT * puts, PUT):
        page = page_at(image, at)
        found = page if is_page(page) else stray_page(image, page)
        if found is not None:
            record.puts.append(found)
        if found is not page:
            record.bad.append(at)
    record.deletes = list(struct.unpack_from(f">{deletes}I", image, after - 4 * deletes))
    return record


def is_record_likely(image: bytes, place: int, end: int) -> bool:
    """Whether a record stands at a place where none has to."""
    counts = counts_at(image, place, end)
    if counts is None or counts[1] + counts[2] == 0:
        return False
    after, puts, _ = counts
    first = place + RECORD_HEAD.size
    if puts:
        return any(is_page(page_at(image, at)) for at in range(first, first + PUT * min(puts, 4), PUT))
    return all(number < MOST_PAGE_NUMBERS for number, in struct.iter_unpack(">I", image[first:after]))


def is_page_likely(image: bytes, place: int, end: int) -> bool:
    """Whether a page stands at a place where none has to: an entry begins in it, or another page follows."""
    if end - place < PUT:
        return False
    page, after = page_at(image, place), place + PUT
    if not is_page(page):
        return False
    if page.part == 0 and page.object % 2:
        return begins_entry(image, page)
    if page.object == 0 and page.part == 0:
        return 1 <= image[place + 16] <= 39
    follows = end - after >= PUT and is_page(page_at(image, after))
    return follows or counts_at(image, after, end) is not None or image[after : after + 4] == b"\xff" * 4


class Search:
    """The next record or page from a place on, by their forms alone."""

    def __init__(self, image: bytes, end: int):
        self.image, self.end = image, end
        self.known: dict[re.Pattern, Optional[int]] = {}

    def next(self, pattern: re.Pattern, is_likely, at: int) -> Optional[int]:
        known = self.known.get(pattern, -1)
        if known is None or known >= at:
            return known
        while match := pattern.search(self.image, at, self.end):
            if is_likely(self.image, match.start(), self.end):
                self.known[pattern] = match.start()
                return match.start()
            at = match.start() + 1
        self.known[pattern] = None
        return None

    def from_place(self, at: int) -> tuple[Optional[int], Optional[int]]:
        record = self.next(LIKE_RECORD, is_record_likely, at)
        page = self.next(LIKE_PAGE, is_page_likely, at)
        return record, page


def run_of_pages(image: bytes, place: int, end: int) -> Record:
    """Pages one after the other, from a place on."""
    record = Record(place, place, Kind.LOOSE)
    while end - record.end >= PUT:
        page = page_at(image, record.end)
        if not is_page(page):
            break
        record.puts.append(page)
        record.end += PUT
    return record


def records_of(image: bytes, start: int, end: int) -> Iterator[Record]:
    """All that is found in a bank, in order. A record stands where the one before ends, or anywhere else."""
    search, at = Search(image, end), start
    while at < end and USED.search(image, at, end):
        record = record_at(image, at, end)
        if record is None:
            head, page = search.from_place(at)
            places = [it for it in (head, page) if it is not None]
            if not places:
                return
            # The pages of a record come after its head, so the head is taken where both are likely.
            record = record_at(image, head, end) if min(places) == head else run_of_pages(image, page, end)
        yield record
        at = record.end


def used_parts(image: bytes, begin: int, end: int) -> Iterator[tuple[int, int]]:
    """The parts of a stretch between what is blank in it."""
    for blank in BLANK_RUN.finditer(image, begin, end):
        if blank.start() > begin:
            yield begin, blank.start()
        begin = blank.end()
    if USED.search(image, begin, end):
        yield begin, end


def read_bank(image: bytes, number: int, start: int, end: int) -> Bank:
    bank = Bank(number, start, end, VERSIONS.get(image[start : start + HEADER]))
    at, is_journal = start + HEADER, bank.version is not None
    bank.journal_end = at
    if image.count(0, start, end) == end - start:
        return bank  # of a fresh file
    bank.records = list(records_of(image, at, end))
    for record in bank.records:
        if record.place > at:
            bank.damage += used_parts(image, at, record.place)
        is_journal &= record.place == at and record.kind is Kind.JOURNAL and image[record.place] == 0
        if is_journal:
            bank.journal_end = record.end
        elif record.kind is Kind.JOURNAL:
            record.kind = Kind.PAST
        at = record.end
    is_last_open = bank.records and bank.records[-1].kind is Kind.PAST and image[bank.records[-1].place] == 255
    if is_last_open and bank.records[-1].place == bank.journal_end:
        bank.records[-1].kind = Kind.OPEN
    bank.damage += used_parts(image, at, end)
    return bank


def bank_blocks(image: bytes, by_size: int) -> int:
    """The blocks of a bank: by the size of the image, or by the place of the second header where it is another."""
    headers = [at for at in range(3, len(image) // BLOCK) if image[BLOCK * at : BLOCK * at + HEADER] in VERSIONS]
    if 3 + by_size in headers:
        return by_size
    second = [at for at in headers if at > 3]
    return second[0] - 3 if second else by_size


def read_image(image: bytes, blocks: Optional[int] = None) -> Image:
    """An image, which had so many blocks before it was cut, if that is known."""
    size = blocks or len(image) // BLOCK
    votes = [image[BLOCK * it] for it in range(3) if BLOCK * it < len(image)]
    by_size = max(1, (size - 3) // 2)
    each = by_size if blocks else bank_blocks(image, by_size)
    last = BLOCK * (3 + 2 * each) if each == by_size else len(image)
    edges = [min(it, len(image)) for it in (BLOCK * 3, BLOCK * (3 + each), last)]
    banks = [read_bank(image, number, edges[number], edges[number + 1]) for number in (0, 1)]
    return Image(image, size, votes, banks)
