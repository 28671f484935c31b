"""Stores as scripts: the lines that make a store on a blank card, those that make one soup, and those of one entry."""

from dataclasses import dataclass, field
from typing import Callable, Iterator

from commands import MOST_LINE
from graphs import NIL, Binary, Frame, Large, Walk, copied
from lines import IDENTIFIER
from literals import of_data, print_literal
from replies import of_name, of_path, of_spec
from stores import MOST_PATH, Entry, Soup, Store
from streams import encode_flat

from newton.run import Failed, several

MOST_INLINE = 500  # A large binary of more bytes is written by lines of its own.
PIECE = 30_000  # How many bytes one such line has.
ROOM = MOST_LINE - 120  # What a command, a unit, a soup's name in quotes and an id leave of a line.
MOST_FILLERS = 10_000


class TooLong(Exception):
    """No line has room for an entry."""


@dataclass
class Addition:
    """An entry as commands: the words after the soup's name that add it, and what follows once its id is known."""

    words: str
    verb: str = "add"
    rest: list[tuple[str, str]] = field(default_factory=list)

    def first(self, unit: int, soup: str) -> str:
        return f"{self.verb} {unit} {soup} {self.words}"

    def others(self, unit: int, soup: str, uid: int) -> list[str]:
        return [f"{verb} {unit} {soup} {uid} {words}" for verb, words in self.rest]


def paths_to_larges(root: Frame) -> dict[int, tuple]:
    """For each large binary that a path of names reaches, its shortest path, by its identity."""
    found: dict[int, tuple] = {}
    places, seen = [((), root)], {id(root)}
    for path, frame in places:
        for tag, value in zip(frame.tags, frame.values):
            if not IDENTIFIER.fullmatch(tag.name) or len(path) == MOST_PATH:
                continue
            here = (*path, tag.name)
            if isinstance(value, Large):
                found.setdefault(id(value), here)
            if isinstance(value, Frame) and id(value) not in seen:
                seen.add(id(value))
                places.append((here, value))
    return found


def zeros(large: Large) -> str:
    """The bytes of a large binary as zeros, in the short form that a literal has for them."""
    return f"*{len(large.data)}"


def pieces(large: Large) -> Iterator[tuple[int, bytes]]:
    """Where each piece of a large binary begins, and its bytes, without the zeros at its ends."""
    for at in range(0, len(large.data), PIECE):
        piece = large.data[at : at + PIECE].rstrip(b"\x00")
        kept = piece.lstrip(b"\x00")
        if kept:
            yield at + len(piece) - len(kept), kept


def addition(root: Frame) -> Addition:
    """An entry as commands: as a literal where a line has room for it, else as a stream."""
    paths = paths_to_larges(root)
    long = [it for it in Walk(root).larges() if len(it.data) > MOST_INLINE]
    apart = {id(it): it for it in long if id(it) in paths or not any(it.data)}

    def data_text(binary: Binary) -> str:
        return zeros(binary) if id(binary) in apart else of_data(binary)

    literal = print_literal(root, data_text)
    rest = [
        ("vwrite", f"{of_path(paths[number])} {at} {data.hex().upper()}")
        for number, large in apart.items()
        for at, data in pieces(large)
    ]
    if len(literal) <= ROOM:
        return Addition(literal, rest=rest)
    stream = encode_flat(root).hex().upper()
    return Addition(stream, "addx") if len(stream) <= ROOM else in_steps(root, paths, data_text, rest)


def in_steps(root: Frame, paths: dict[int, tuple], data_text: Callable[[Binary], str], rest: list) -> Addition:
    """An entry that is added without its large binaries, which are put into their slots afterwards."""
    walk = Walk(root)
    larges = walk.larges()
    if any(id(it) in walk.shared or id(it) not in paths for it in larges):
        raise TooLong
    put = [("set", f"{of_path(paths[id(it)])} {print_literal(it, data_text)}") for it in larges]
    bare = copied(root)
    for node in Walk(bare).nodes:
        node.renew(lambda it: NIL if isinstance(it, Large) else it)
    text = encode_flat(bare).hex().upper()
    if len(text) > ROOM or any(len(words) > ROOM for _, words in put):
        raise TooLong
    return Addition(text, "addx", put + rest)


def soup_lines(unit: int, name: str, soup: Soup) -> list[str]:
    """The lines that make a soup under a name, with its indexes, its tags and its info frame."""
    lines = [f"soup {unit} {name}", *(f"index {unit} {name} {of_spec(it)}" for it in soup.specs)]
    if soup.tags is not None and soup.tags.symbols:
        symbols = " ".join(it.decode() for it in soup.tags.symbols)
        lines.append(f"tags {unit} {name} {of_path(soup.tags.path)} {symbols}")
    if soup.info is not None:
        lines.append(f"info {unit} {name} {print_literal(soup.info)}")
    return lines


class Script:
    """The script of a store, and what of the store no command can say."""

    def __init__(self, store: Store, keeps_ids: bool):
        self.store, self.keeps_ids = store, keeps_ids
        self.left_out: list[str] = []
        self.minute = 0
        gaps = [store.next_soup - len(store.soups)]
        gaps += [it.next_uid - len(it.entries) for it in store.soups]
        if keeps_ids and sum(gaps) > MOST_FILLERS:
            raise Failed(f"{sum(gaps)} ids were given and are free: backup and restore keep them")

    def lines(self) -> Iterator[str]:
        name = of_name(self.store.name)
        soups = several(len(self.store.soups), "soup", "soups")
        entries = several(sum(len(it.entries) for it in self.store.soups), "entry", "entries")
        yield f"% The store {name}: {soups}, {entries}."
        if not self.keeps_ids:
            yield "% Soups and entries get new ids, from 0 on, and aliases of before lead elsewhere."
        yield from (f"format 0 {name} {self.store.sig}", "mount 0")
        given = 0
        for soup in self.store.soups:
            yield from self.spare_soups(given, soup.sig)
            yield from self.of_soup(soup)
            given = soup.sig + 1
        yield from self.spare_soups(given, self.store.next_soup)

    def spare_soups(self, given: int, wanted: int) -> Iterator[str]:
        """Gives away the signatures up to one, so that the next soup has it."""
        names = {it.name for it in self.store.soups}
        spare = next(it for it in map(str, range(len(names) + 1)) if it.encode() not in names)
        for _ in range(given, wanted if self.keeps_ids else given):
            yield from (f"soup 0 {spare}", f"drop 0 {spare}")

    def of_soup(self, soup: Soup) -> Iterator[str]:
        name = of_name(soup.name)
        yield from soup_lines(0, name, soup)
        if soup.tags is not None and not soup.tags.symbols:
            self.left_out.append(f"the tags of {name}, which have no symbols")
        given = 0
        for entry in soup.entries:
            yield from self.spare_entries(name, given, entry.uid)
            given = entry.uid if self.keeps_ids else given
            lines = list(self.of_entry(entry, name, given))
            yield from lines
            given += bool(lines)
        yield from self.spare_entries(name, given, soup.next_uid)

    def spare_entries(self, name: str, given: int, wanted: int) -> Iterator[str]:
        for uid in range(given, wanted if self.keeps_ids else given):
            yield from (f"add 0 {name} {{}}", f"remove 0 {name} {uid}")

    def of_entry(self, entry: Entry, name: str, uid: int) -> Iterator[str]:
        try:
            found = addition(entry.graph)
        except TooLong:
            self.left_out.append(f"the entry {entry.uid} of {name}, for which no line has room")
            return
        if entry.time != self.minute:
            yield f"time {entry.time}"
            self.minute = entry.time
        if uid != entry.uid:
            yield f"% {uid} was {entry.uid}"
        yield found.first(0, name)
        yield from found.others(0, name, uid)
