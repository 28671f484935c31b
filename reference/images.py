"""What the image of a device is read as: votes, bank, records, pages, objects, and the store that they write down."""

import struct
from typing import Optional

from graphs import MOST_BYTES, Frame, Ref, Walk
from lines import IDENTIFIER
from scanner import Scanner
from stores import (
    KINDS,
    LEAST_BLOCKS,
    MOST_BLOCKS,
    MOST_INDEXES,
    MOST_INFO,
    MOST_OLD_SOUPS,
    MOST_SIGNATURE,
    MOST_SKELETON,
    MOST_SOUPS,
    MOST_TAGS,
    ORDERS,
    Entry,
    Part,
    Soup,
    Store,
    Tags,
    capacity,
    cost,
    is_name,
    paths_of,
)
from streams import Malformed, decode, encode_flat, pages

BLOCK = 4096
OLD_HEADER, HEADER = (b"NSTORE" + version.to_bytes(2, "big") + bytes(8) for version in (1, 2))
VERSIONS = {OLD_HEADER: 1, HEADER: 2}


class NoStore(Exception):
    """The image is not that of a store."""


def wants(holds) -> None:
    if not holds:
        raise NoStore


def flat_graph(text: bytes) -> Ref:
    """The graph whose flat text this is."""
    try:
        graph, is_compressed = decode(text)
    except Malformed as fault:
        raise NoStore from fault
    wants(not is_compressed and encode_flat(graph) == text)
    return graph


class Record(Scanner):
    """Bytes of an image, which are taken from the front."""

    fault = NoStore

    def short_text(self) -> bytes:
        return self.take(self.number(1))

    def name(self) -> bytes:
        name = self.short_text()
        self.wants(is_name(name))
        return name

    def identifier(self) -> bytes:
        name = self.short_text()
        self.wants(IDENTIFIER.fullmatch(name))
        return name

    def several(self, item, least: int, most: int) -> tuple:
        count = self.number(1, most)
        self.wants(count >= least)
        return tuple(item() for _ in range(count))

    def path(self) -> tuple:
        return self.several(self.identifier, 1, 8)

    def part(self) -> Part:
        kind, order = self.number(1, len(KINDS) - 1), self.number(1, len(ORDERS) - 1)
        return Part(self.path(), KINDS[kind], ORDERS[order])

    def spec(self) -> tuple:
        return self.several(self.part, 1, 4)

    def tags(self) -> Tags:
        tags = Tags(self.path(), self.several(self.identifier, 0, MOST_TAGS))
        self.wants(len({it.lower() for it in tags.symbols}) == len(tags.symbols))
        return tags

    def info(self) -> Frame:
        info = flat_graph(self.take(self.number(2, MOST_INFO)))
        self.wants(isinstance(info, Frame) and not Walk(info).larges())
        return info

    def soup(self, version: int) -> Soup:
        name, sig, next_uid = self.name(), self.number(2), self.number(4, MOST_SIGNATURE)
        specs = self.several(self.spec, 0, MOST_INDEXES)
        self.wants(len({paths_of(it) for it in specs}) == len(specs))
        flags = self.number(1, {1: 1, 2: 3}[version])
        tags = self.tags() if flags & 1 else None
        return Soup(name, sig, next_uid, specs, tags, self.info() if flags & 2 else None)

    def directory(self, version: int) -> Store:
        most = {1: MOST_OLD_SOUPS, 2: MOST_SOUPS}[version]
        store = Store(
            self.name(),
            self.number(4, MOST_SIGNATURE),
            self.number(2),
            self.several(lambda: self.soup(version), 0, most),
        )
        numbers = [it.sig for it in store.soups]
        self.wants(self.left() == 0 and len({it.name for it in store.soups}) == len(store.soups))
        self.wants(all(one < other for one, other in zip(numbers, [*numbers[1:], store.next_soup])))
        return store


def bank_of(image: bytes) -> bytes:
    """The bank that the votes choose."""
    blocks = len(image) // BLOCK
    wants(LEAST_BLOCKS <= blocks <= MOST_BLOCKS)
    votes = [image[BLOCK * it] for it in range(3)]
    chosen = [bank for bank in (0, 1) if votes.count(bank) >= 2] or votes[:1]
    wants(chosen[0] in (0, 1))
    size = (blocks - 3) // 2
    return image[BLOCK * (3 + chosen[0] * size) : BLOCK * (3 + chosen[0] * size + size)]


def version_of(image: bytes) -> int:
    version = VERSIONS.get(bank_of(image)[: len(HEADER)])
    wants(version is not None)
    return version


def payloads(image: bytes) -> list[bytes]:
    version_of(image)
    bank, found = Record(bank_of(image)[len(HEADER) :]), []
    while bank.passes(b"\x00"):
        found.append(bank.take(bank.number(4)))
    return found


def pages_of(image: bytes) -> dict:
    found: dict[int, bytes] = {}
    for payload in map(Record, payloads(image)):
        puts, deletes = payload.number(2), payload.number(2)
        wants(payload.left() == 516 * puts + 4 * deletes)
        put = [(payload.number(4, 65_535), payload.take(512)) for _ in range(puts)]
        deleted = [payload.number(4, 65_535) for _ in range(deletes)]
        wants(len({*dict(put), *deleted}) == puts + deletes)
        found.update(put)
        found = {number: page for number, page in found.items() if number not in deleted}
    return found


def objects_of(image: bytes) -> dict:
    parts: dict[int, list] = {}
    for page in pages_of(image).values():
        number, part, length = struct.unpack(">III", page[:12])
        parts.setdefault(number, []).append((part, length, page[12:]))
    for found in parts.values():
        found.sort(key=lambda it: it[0])
        length = found[0][1]
        wants([it[:2] for it in found] == [(part, length) for part in range(pages(length))])
    return {number: b"".join(it[2] for it in found)[: found[0][1]] for number, found in parts.items()}


def read_entry(record: bytes, objects: dict, named: list) -> tuple[int, Entry]:
    """The soup and the entry of a record, whose large binaries are noted."""
    wants(len(record) >= 12)
    sig, count, uid, time = struct.unpack(">HHII", record[:12])
    wants(len(record) >= 12 + 12 * count)
    skeleton, places = record[12 : len(record) - 12 * count], record[len(record) - 12 * count :]
    wants(len(skeleton) <= MOST_SKELETON)
    graph = flat_graph(skeleton)
    wants(isinstance(graph, Frame))
    walk = Walk(graph)
    wants(len(walk.larges()) == count and not any(it.data for it in walk.larges()))
    for large, (node, number, length) in zip(walk.larges(), struct.iter_unpack(">III", places)):
        wants(node == walk.numbers[id(large)] and number > 0 and number % 2 == 0 and number in objects)
        wants(len(objects[number]) == length <= MOST_BYTES)
        large.data = objects[number]
        named.append(number)
    return sig, Entry(uid, time, graph, pages(len(record)) + sum(pages(len(it.data)) for it in walk.larges()))


def store_of_image(image: bytes) -> Optional[Store]:
    try:
        objects = objects_of(image)
        wants(0 in objects)
        store, named = Record(objects[0]).directory(version_of(image)), []
        for number in sorted(it for it in objects if it % 2):
            sig, entry = read_entry(objects[number], objects, named)
            soup = next((it for it in store.soups if it.sig == sig), None)
            wants(soup and entry.uid < soup.next_uid and soup.entry(entry.uid) is None)
            store = store.with_soup(soup.with_entry(entry))
        wants(sorted(named) == sorted(it for it in objects if it > 0 and it % 2 == 0))
        wants(cost(store) <= capacity(len(image) // BLOCK))
        return store
    except NoStore:
        return None


def is_same_store(one: Store, other: Store) -> bool:
    """Whether two stores are equal, their graphs by their flat texts."""

    def told_info(soup: Soup) -> Optional[bytes]:
        return None if soup.info is None else encode_flat(soup.info)

    def told(store: Store) -> list:
        entries = [(it.sig, [(at.uid, at.time, encode_flat(at.graph)) for at in it.entries]) for it in store.soups]
        return [
            store.name,
            store.sig,
            store.next_soup,
            [(it.name, it.sig, it.next_uid, it.specs, it.tags, told_info(it)) for it in store.soups],
            entries,
        ]

    return told(one) == told(other)
