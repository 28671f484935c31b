"""How much of damaged cards comes back: by a mount, and by `salvage`.

    NEWTON=PROGRAM python3 tools/tests/measure.py [COUNT]

damages COUNT cards in each of several ways, and prints a table in Markdown. An entry is back where its soup, its id,
its minute and its graph are those that it had last. It is an older one where they are those of an earlier version, and
false where the card never held it.
"""

import sys
import tempfile
from pathlib import Path
from random import Random
from typing import NamedTuple

from cards import BLOCK, made_card

from newton.found import Found, find
from newton.history import Version
from newton.image import read_image

from damage import hostile_image, struck_anywhere
from images import payloads, store_of_image
from stores import Store
from streams import encode_flat

CARDS = 6


class Card(NamedTuple):
    """A whole card: its image, its store, its entries, and all that ever stood on it."""

    image: bytes
    store: Store
    last: dict
    ever: set


def told(found: Found, version: Version) -> bytes:
    return version.time.to_bytes(4, "big") + encode_flat(found.graph(version))


def entries_of(store: Store) -> dict:
    if store is None:
        return {}
    entries = [(soup.sig, it) for soup in store.soups for it in soup.entries]
    return {(sig, it.uid): it.time.to_bytes(4, "big") + encode_flat(it.graph) for sig, it in entries}


def read_card(image: bytes) -> Card:
    store, found = store_of_image(image), find(read_image(image))
    return Card(image, store, entries_of(store), {(it.key, told(found, it)) for it in found.all()})


def flips(count: int):
    def damage(random: Random, card: Card) -> bytes:
        data = bytearray(card.image)
        for _ in range(count):
            data[random.randrange(len(data))] ^= 1 << random.randrange(8)
        return bytes(data)

    return damage


def blocks_of(value: int, count: int):
    def damage(random: Random, card: Card) -> bytes:
        data = bytearray(card.image)
        for _ in range(count):
            at = BLOCK * random.randrange(len(data) // BLOCK)
            data[at : at + BLOCK] = bytes([value]) * BLOCK
        return bytes(data)

    return damage


def front_lost(_: Random, card: Card) -> bytes:
    return bytes(4 * BLOCK) + card.image[4 * BLOCK :]


def cut(random: Random, card: Card) -> bytes:
    return card.image[: random.randrange(len(card.image))]


def gate_flipped(random: Random, card: Card) -> bytes:
    """A bit of the gate of a record: the journal ends there, and `check` can't tell."""
    image = read_image(card.image)
    bank = image.banks[image.chosen()]
    data = bytearray(card.image)
    data[random.choice(bank.records[1:] or bank.records).place] ^= 1 << random.randrange(8)
    return bytes(data)


def struck(random: Random, card: Card) -> bytes:
    return struck_anywhere(random, card.image)


def hostile(random: Random, card: Card) -> bytes:
    records = [b"\x00" + len(it).to_bytes(4, "big") + it for it in payloads(card.image)]
    return hostile_image(random, card.store, len(card.image) // BLOCK, records, records) or card.image


WAYS = {
    "one bit flipped": flips(1),
    "16 bits flipped": flips(16),
    "256 bits flipped": flips(256),
    "one bit of a gate flipped": gate_flipped,
    "a block of zeros": blocks_of(0, 1),
    "four blocks of zeros": blocks_of(0, 4),
    "four blocks of FF": blocks_of(255, 4),
    "votes and first header zeros": front_lost,
    "cut at any byte": cut,
    "stretches struck or swapped": struck,
    "bent in its records, pages or store": hostile,
}


def measured(way, cards: list, count: int) -> list:
    """Of all entries: how many a mount gives, how many salvage gives, as older ones, and how many false ones."""
    whole = mounted = back = older = false = 0
    for seed in range(count):
        card = cards[seed % len(cards)]
        image = way(Random(seed), card)
        given = entries_of(store_of_image(image))
        found = find(read_image(image))
        salvaged = {it.key: told(found, it) for it in found.newest()}
        whole += len(card.last)
        mounted += sum(given.get(key) == it for key, it in card.last.items())
        back += sum(salvaged.get(key) == it for key, it in card.last.items())
        for key, it in salvaged.items():
            if card.last.get(key) != it:
                older, false = older + ((key, it) in card.ever), false + ((key, it) not in card.ever)
    return [whole, mounted, back, older, false]


def main(count: int) -> None:
    with tempfile.TemporaryDirectory() as name:
        cards = [read_card(made_card(Path(name), "card", seed).read_bytes()) for seed in range(CARDS)]
    print("| damage | a mount | `salvage` | older ones | false ones |")
    print("|---|---|---|---|---|")
    for name, way in WAYS.items():
        whole, mounted, back, *others = measured(way, cards, count)
        shares = [f"{100 * it / whole:.1f} %" for it in (mounted, back, *others)]
        print(f"| {name} | {' | '.join(shares)} |", flush=True)


if __name__ == "__main__":
    main(int(sys.argv[1]) if len(sys.argv) > 1 else 60)
