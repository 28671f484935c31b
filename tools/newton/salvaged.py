"""The script that puts what was salvaged on a fresh card, with a word on each entry before it."""

from collections import Counter
from contextlib import suppress
from typing import Iterator, NamedTuple, Optional

from newton.found import Fate, Found, pages_of
from newton.history import Version
from newton.image import BLOCK, Image
from newton.scripts import TooLong, addition, paths_to_larges, soup_lines

from check import report
from graphs import Frame, Walk, copied
from replies import of_name
from stores import LEAST_BLOCKS, MOST_BLOCKS, MOST_NAME, MOST_SIGNATURE, Soup, capacity
from streams import pages

OTHERS = b" (earlier)"


class Choice(NamedTuple):
    """What of a card is put into the script."""

    unit: int = 0
    soup: Optional[str] = None
    is_all: bool = False
    has_card: bool = True  # the lines `format` and `mount`


def place_of(image: Image, place: int) -> str:
    bank = next((it.number for it in image.banks if it.start <= place < it.end), None)
    return f"bank {bank}, block {place // BLOCK}, byte {place}"


def told_fate(found: Found, version: Version) -> str:
    """What a version is, where it lies, and what is missing of it."""
    told = [found.fate(version).value, place_of(found.image, version.pages[0].place)]
    told.append(f"record {version.record.place}, {version.record.kind.value}")
    if version.copies:
        told.append("and as it is at byte " + ", ".join(str(it.pages[0].place) for it in version.copies[-3:]))
    if version.bank != found.banks[-1].number and found.fate(version) is Fate.LIVE:
        told.append("the newer bank does not have it")
    if borrowed := sum(it.borrowed for it in version.larges):
        told.append(f"{borrowed} pages of its large binaries are of another time")
    if missing := version.missing():
        told.append(f"{missing} pages of its large binaries are gone, and are zeros here")
    return "; ".join(told)


def reached(graph: Frame) -> Frame:
    """The graph with zeros for each large binary that no path of names reaches."""
    graph = copied(graph)
    paths = paths_to_larges(graph)
    for large in Walk(graph).larges():
        if id(large) not in paths:
            large.data = bytes(len(large.data))
    return graph


def ways(graph: Frame) -> Iterator[tuple[Frame, list[str]]]:
    """The graph of an entry, as whole as it may be added, and what is told of what it lacks."""
    yield graph, []
    yield reached(graph), ["% no path leads to the bytes of a large binary: salvage --backup has them"]


def entry_lines(unit: int, name: str, uid: int, graph: Frame) -> list[str]:
    """The lines that add an entry, which gets this id, or one that says that no line has room for it."""
    for given, told in ways(graph):
        with suppress(TooLong):
            found = addition(given)
            return [found.first(unit, name), *found.others(unit, name, uid), *told]
    return ["% no line has room for this entry: salvage --backup has it"]


class Names:
    """Names of soups that are told apart, as the script writes them."""

    def __init__(self) -> None:
        self.taken: set[bytes] = set()

    def new(self, name: bytes, after: bytes = b"") -> str:
        wanted, number = name[: MOST_NAME - len(after)] + after, 1
        while wanted in self.taken:
            number += 1
            mark = b"%s %d" % (after, number)
            wanted = name[: MOST_NAME - len(mark)] + mark
        self.taken.add(wanted)
        return of_name(wanted)


def is_chosen(soup: Soup, choice: Choice) -> bool:
    return choice.soup in (None, soup.name.decode(), str(soup.sig))


def added(found: Found, versions: list[Version], name: str, choice: Choice) -> Iterator[str]:
    """The lines that add versions to a new soup, whose ids rise from 0."""
    uid, time = 0, None
    for version in versions:
        yield f"% {name} {version.uid}: {told_fate(found, version)}"
        if version.time != time:
            time = version.time
            yield f"time {time}"
        lines = entry_lines(choice.unit, name, uid, found.graph(version))
        uid += not lines[0].startswith("%")
        yield from lines


def chosen_soups(found: Found, choice: Choice) -> list[Soup]:
    """The soups of the newest directory, and each that entries are left of."""
    kept = found.all() if choice.is_all else found.newest()
    return [it for it in found.soups_of(kept) if is_chosen(it, choice)]


def script(found: Found, choice: Choice) -> Iterator[str]:
    """The lines of the script, without their ends."""
    unit, names = choice.unit, Names()
    name, sig = found.name_and_signature()
    if choice.has_card:
        # Ids are given anew. So the store has another signature, and no old alias leads to another entry.
        yield f"format {unit} {of_name(name)} {(sig + 1) % (MOST_SIGNATURE + 1)}"
        yield f"mount {unit}"
    newest, whole = found.newest(), found.all()
    for soup in chosen_soups(found, choice):
        given = names.new(soup.name)
        yield from soup_lines(unit, given, soup)
        yield from added(found, [it for it in newest if it.sig == soup.sig], given, choice)
    for soup in chosen_soups(found, choice) if choice.is_all else []:
        older = [it for it in whole if it.sig == soup.sig and it not in newest]
        if older:
            given = names.new(soup.name, OTHERS)
            yield f"soup {unit} {given}"
            yield from added(found, older, given, choice)


def blocks_for(found: Found, choice: Choice) -> int:
    """A card of so many blocks has room for the script, and for a fourth more."""
    soups = {it.sig for it in chosen_soups(found, choice)}
    versions = [it for it in (found.all() if choice.is_all else found.newest()) if it.sig in soups]
    directory = sum(80 + sum(len(line) for line in soup_lines(0, "", found.soups[it])) for it in soups)
    wanted = pages_of(found, versions) + 2 * pages(directory)
    blocks = LEAST_BLOCKS
    while blocks < MOST_BLOCKS and capacity(blocks) < wanted * 5 // 4:
        blocks += 1
    return blocks


def counted(found: Found) -> str:
    """How many versions of which fate there are, and what is missing."""
    fates = Counter(found.fate(it) for it in found.all())
    words = {Fate.LIVE: "live", Fate.LOST: "lost", Fate.EARLIER: "earlier", Fate.REMOVED: "removed"}
    told = [f"{fates[fate]} {word}" for fate, word in words.items()]
    told.append(f"{fates[Fate.OPEN]} unfinished")
    told.append(f"{len(found.unread())} unreadable")
    return ", ".join(told)


def heading(found: Found, name: str) -> Iterator[str]:
    """What the card is, and what was found on it."""
    image = found.image
    yield f"{name}: {len(image.data)} bytes, {image.blocks} blocks; check: {report(image.data)}"
    yield "votes " + " ".join(str(it) if it in (0, 1) else f"{it:02X}" for it in image.votes)
    for bank in image.banks:
        header = f"version {bank.version}" if bank.version else "no header"
        damage = sum(end - begin for begin, end in bank.damage)
        is_newest = found.banks and bank is found.banks[-1]
        told = f"bank {bank.number} from byte {bank.start}: {header}, {len(bank.records)} records"
        told += f", the journal ends at {bank.journal_end}, {damage} bytes are neither records nor blank"
        yield told + (", the newer one" if is_newest else "")
    for bank in image.banks:
        for begin, end in bank.damage[:20]:
            yield f"nothing is found from byte {begin} to {end}, block {begin // BLOCK}"
    for page in found.unread()[:20]:
        yield f"no entry can be read at {place_of(image, page.place)}"
    yield f"versions of entries: {counted(found)}"
