"""What is left of a store on a card: its soups, and of each entry every version, with what has become of it."""

from dataclasses import dataclass, field, replace
from enum import Enum
from typing import NamedTuple, Optional

from newton.history import Directory, History, LargeAt, Version, read_directory
from newton.image import Bank, Image, Kind, Page

from graphs import Frame, Walk
from stores import Entry, Soup, Store
from streams import decode, pages

DIFFERENT = 0.2  # by so much one order of the banks has to be likelier than the other, to be believed against the votes


class Fate(Enum):
    """What has become of a version of an entry."""

    LIVE = "live"
    LOST = "lost, and this is the newest that can be read"
    EARLIER = "earlier"
    REMOVED = "removed"
    OPEN = "unfinished"


class Facts(NamedTuple):
    """What tells which of two banks is the newer one."""

    first: set[tuple]
    last: set[tuple]
    directory: Optional[Directory]


def facts_of(image: Image, bank: Bank) -> Facts:
    def told(numbers: dict[int, Page]) -> set[tuple]:
        return {(number, page.data(image.data)) for number, page in numbers.items()}

    numbers: dict[int, Page] = {}
    first: Optional[set] = None
    for record in (it for it in bank.records if it.kind is not Kind.OPEN):
        for number in record.deletes:
            numbers.pop(number, None)
        numbers.update({page.number: page for page in record.puts})
        first = told(numbers) if first is None else first
    parts = sorted((it for it in numbers.values() if it.object == 0), key=lambda it: it.part)
    data = b"".join(it.data(image.data) for it in parts)[: parts[0].length if parts else 0]
    directory = read_directory(data, True, bank.version or 2, bank.number, None)
    return Facts(first or set(), told(numbers), directory)


def likeness(one: set, other: set) -> float:
    return len(one & other) / max(len(one), len(other), 1)


def newest_bank(image: Image, facts: list[Facts]) -> int:
    """The newer of two banks: its next numbers are higher, or its first record has what the other one left."""
    zero, one = (it.directory for it in facts)
    if zero and one and zero.is_whole and one.is_whole and (zero.sig, zero.name) == (one.sig, one.name):
        next_of = [(it.next_soup, sum(soup.next_uid for soup in it.soups)) for it in (zero, one)]
        if next_of[0][0] != next_of[1][0]:
            return 0 if next_of[0] > next_of[1] else 1
        sums = [{soup.sig: soup.next_uid for soup in it.soups} for it in (zero, one)]
        both = sums[0].keys() & sums[1].keys()
        rises = [sums[1][it] - sums[0][it] for it in both if sums[1][it] != sums[0][it]]
        if rises:
            return 1 if rises[0] > 0 else 0
    zero_after = likeness(facts[0].first, facts[1].last)
    one_after = likeness(facts[1].first, facts[0].last)
    if abs(zero_after - one_after) > DIFFERENT or image.chosen() is None:
        return 0 if zero_after > one_after else 1
    return image.chosen()


def banks_in_order(image: Image, only: Optional[int] = None) -> list[Bank]:
    """The banks in which something is found, the older one first; another store's is left out."""
    banks = [it for it in image.banks if it.records and only in (None, it.number)]
    if len(banks) < 2:
        return banks
    facts = [facts_of(image, it) for it in banks]
    newest = newest_bank(image, facts)
    directories = [it.directory for it in facts]
    if all(directories) and len({(it.name, it.sig) for it in directories}) == 2:
        return [banks[newest]]
    return [banks[1 - newest], banks[newest]]


@dataclass
class Found:
    """All that is found on a card, under the soups that its directories name."""

    image: Image
    banks: list[Bank]
    history: History
    entries: dict[tuple[int, int], list[Version]] = field(default_factory=dict)  # by soup and id, the newest last
    fates: dict[int, Fate] = field(default_factory=dict)  # by the identity of a version
    soups: dict[int, Soup] = field(default_factory=dict)
    bytes_known: dict[LargeAt, bytes] = field(default_factory=dict)

    def fate(self, version: Version) -> Fate:
        return self.fates[id(version)]

    def directory(self) -> Optional[Directory]:
        """The newest directory."""
        return next((it for it in reversed(self.history.directories) if it.record.kind is not Kind.OPEN), None)

    def name_and_signature(self) -> tuple[bytes, int]:
        """Those of the store, by the newest directory."""
        directory = self.directory()
        return (directory.name, directory.sig) if directory else (b"Salvaged", 0)

    def soups_of(self, versions: list[Version]) -> list[Soup]:
        """The soups of the newest directory, and each other that one of these versions is of."""
        directory = self.directory()
        numbers = {it.sig for it in versions} | {it.sig for it in (directory.soups if directory else [])}
        return [self.soups[sig] for sig in sorted(numbers)]

    def newest(self) -> list[Version]:
        """The version of each entry that is live, or the newest that can be read of one that is lost."""
        kept = [it for found in self.entries.values() for it in found if self.fate(it) in (Fate.LIVE, Fate.LOST)]
        return sorted(kept, key=lambda it: it.key)

    def all(self) -> list[Version]:
        return [it for key in sorted(self.entries) for it in self.entries[key]]

    def graph(self, version: Version) -> Frame:
        """The graph of a version, whose large binaries have zeros for what is missing of them."""
        if not version.larges:
            return version.skeleton
        graph, _ = decode(version.text)
        for node, large in zip(Walk(graph).larges(), version.larges):
            node.data = self.bytes_of(large)
        return graph

    def bytes_of(self, large: LargeAt) -> bytes:
        if large not in self.bytes_known:
            self.bytes_known[large] = self.history.joined(large.parts)[: large.length]
        return self.bytes_known[large]

    def unread(self) -> list[Page]:
        """The first pages of objects that are entries and can't be read as such, as they were left last."""
        live = self.history.state.by_number.values()
        places = {it.place for it in live}
        return [page for _, number, page in self.history.unread if page.place in places and number % 2]


def same(found: Found, version: Version) -> tuple:
    """What tells a version from others of its entry."""
    larges = tuple(hash(found.bytes_of(it)) for it in version.larges)
    return (*version.key, version.time, version.text, larges)


def gather(found: Found) -> None:
    """Puts what stands on both banks together, in the place of the newer one."""
    known: dict[tuple, Version] = {}
    for version in found.history.versions:
        told = same(found, version)
        if told in known and not version.is_finished():
            continue
        old = known.pop(told, None)
        if old is not None:
            version.copies = [*old.copies, old]
        known[told] = version
    for version in known.values():
        found.entries.setdefault(version.key, []).append(version)


def is_removed(found: Found, version: Version) -> bool:
    """Whether the last version of an entry was removed, as far as whole records tell."""
    if version.ended is not None:
        return version.ended.is_whole() and not version.is_replaced
    unread = {number for bank, number, _ in found.history.unread if bank == found.banks[-1].number}
    return version.bank != found.banks[-1].number and version.pages[0].object not in unread


def judge(found: Found) -> None:
    """Says what has become of each version."""
    live = {id(it) for it in found.history.live()}
    for versions in found.entries.values():
        finished = [it for it in versions if it.is_finished()]
        now = [it for it in finished if id(it) in live]
        for version in versions:
            found.fates[id(version)] = Fate.EARLIER if version.is_finished() else Fate.OPEN
        if now:
            found.fates[id(now[-1])] = Fate.LIVE
        elif finished:
            found.fates[id(finished[-1])] = Fate.REMOVED if is_removed(found, finished[-1]) else Fate.LOST


def name_soups(found: Found) -> None:
    """Gives each signature its soup: of the newest directory that names it, or one without a name."""
    for directory in reversed(found.history.directories):
        for soup in directory.soups:
            found.soups.setdefault(soup.sig, soup)
    names = {it.name for it in found.soups.values()}
    for sig in sorted({sig for sig, _ in found.entries} - found.soups.keys()):
        name = b"Soup %d" % sig
        found.soups[sig] = Soup(name + b" (nameless)" if name in names else name, sig)


def find(image: Image, only: Optional[int] = None) -> Found:
    """Finds what is left on both banks of a card, or on one of them only."""
    found = Found(image, banks_in_order(image, only), History(image))
    for bank in found.banks:
        first = bank.records[0]
        # A bank begins with all pages of its store. Where these are damaged, those of the older bank stand for them.
        if first.is_whole() and first.place == bank.start + 16:
            found.history.forget()
        found.history.play(bank)
    gather(found)
    judge(found)
    name_soups(found)
    return found


def store_of(found: Found) -> Store:
    """The store of the newest versions, under the numbers that they had."""
    directory = found.directory()
    soups = []
    for soup in found.soups_of(found.newest()):
        entries = tuple(Entry(it.uid, it.time, found.graph(it), 0) for it in found.newest() if it.sig == soup.sig)
        next_uid = max([soup.next_uid, *(it.uid + 1 for it in entries)])
        soups.append(replace(soup, next_uid=next_uid, entries=entries))
    name, sig = found.name_and_signature()
    next_soup = max([directory.next_soup if directory else 0, *(it.sig + 1 for it in soups)])
    return Store(name, sig, next_soup, tuple(soups))


def pages_of(found: Found, versions: list[Version]) -> int:
    """How many pages these versions take on a card, without the directory."""
    return sum(
        pages(12 + len(it.text) + 12 * len(it.larges)) + sum(pages(large.length) for large in it.larges)
        for it in versions
    )
