"""Images made at random: stores that lie on a device in other ways than the program writes them, often with damage."""

import struct
from random import Random
from typing import Optional

from graphs import Walk
from images import BLOCK, HEADER, OLD_HEADER
from stores import MOST_OLD_SOUPS, Store, directory
from streams import encode_flat, pages

# Votes that choose the bank, whose number is put for the 1; the 0 is the other bank, and any other number no vote.
VOTES = ((1, 1, 1), (0, 1, 1), (1, 0, 1), (1, 1, 0), (1, 0, 255), (1, 255, 255), (255, 1, 1), (1, 7, 0))
BLANK = b"\xff"


def objects_of(random: Random, store: Store) -> dict[int, bytes]:
    """The objects of a store, under any numbers that may be theirs."""
    objects = {0: directory(store)}
    odd, even = iter(random.sample(range(1, 6000, 2), 3000)), iter(random.sample(range(2, 6000, 2), 2999))
    for soup in store.soups:
        for entry in soup.entries:
            walk = Walk(entry.graph)
            named = [(it, next(even)) for it in walk.larges()]
            objects.update({number: it.data for it, number in named})
            places = [struct.pack(">III", walk.numbers[id(it)], number, len(it.data)) for it, number in named]
            start = struct.pack(">HHII", soup.sig, len(named), entry.uid, entry.time)
            objects[next(odd)] = start + encode_flat(entry.graph, is_skeleton=True) + b"".join(places)
    return objects


def damaged(random: Random, objects: dict[int, bytes]) -> None:
    """Changes, cuts, lengthens, removes, doubles, adds or swaps an object."""
    number = random.choice([0, random.choice(list(objects))])
    data = bytearray(objects[number])
    kind = random.randrange(12)
    if kind < 6 and data:
        at = random.randrange(len(data))
        data[at] = random.choice((0, 1, 255, data[at] ^ 1, data[at] ^ 32, random.randrange(256)))
        objects[number] = bytes(data)
    elif kind == 6:
        objects[number] = bytes(data[:-1])
    elif kind == 7:
        objects[number] = bytes(data) + bytes([random.randrange(256)])
    elif kind == 8 and number:
        del objects[number]
    elif kind == 9:
        objects[random.randrange(6000)] = bytes(data)
    elif kind == 10:
        objects[random.choice((2, 3, 4, 5, 2**32 - 2, 2**32 - 1))] = b""
    else:
        other = random.choice(list(objects))
        objects[number], objects[other] = objects[other], objects[number]


def pages_of(random: Random, objects: dict[int, bytes]) -> list[bytes]:
    """The pages of objects, in any order, with anything in the bytes that are not used."""
    found = []
    for number, data in objects.items():
        for part in range(pages(len(data))):
            used = data[500 * part : 500 * part + 500]
            rest = random.choice((bytes(500), random.randbytes(500)))[len(used) :]
            found.append(struct.pack(">III", number, part, len(data)) + used + rest)
    random.shuffle(found)
    return found


def record(puts: dict[int, bytes], deletes: list[int]) -> bytes:
    put = b"".join(number.to_bytes(4, "big") + page for number, page in puts.items())
    deleted = b"".join(number.to_bytes(4, "big") for number in deletes)
    payload = struct.pack(">HH", len(puts), len(deletes)) + put + deleted
    return b"\x00" + len(payload).to_bytes(4, "big") + payload


def records_of(random: Random, found: list[bytes]) -> list[bytes]:
    """Records that leave these pages; some put a page that a later one puts again or removes."""
    numbers = iter(random.sample(range(random.choice((2 * len(found) + 40, 65_536))), 2 * len(found) + 40))
    records, passing = [], []
    while found or passing:
        count = random.choice((1, 2, 3, len(found)))
        taken, found = found[:count], found[count:]
        deletes = [passing.pop()] if passing and (not found or random.random() < 0.5) else []
        puts = {next(numbers): page for page in taken}
        if found and random.random() < 0.2:
            passing.append(next(numbers))
            puts[passing[-1]] = random.randbytes(512)
        if random.random() < 0.1:
            # A page that is not there may be removed.
            deletes.append(next(numbers))
        records.append(record(puts, deletes))
    return records


def tail_of(random: Random, length: int) -> bytes:
    """What stands after the records: nothing, or what a crash has left of another."""
    torn = (BLANK + random.randbytes(600)).ljust(length, BLANK)
    last = BLANK * max(0, length - 1) + b"\x00"
    return random.choice((BLANK * length, BLANK * length, torn, last))[:length]


def struck(random: Random, image: bytearray, begin: int, records: list[bytes]) -> None:
    """Changes a byte of a vote, of the bank's header, or of the head of a record or a page."""
    places = [BLOCK * it for it in range(3)] + [begin + it for it in range(len(HEADER))]
    at = begin + len(HEADER)
    for it in records:
        puts = struct.unpack(">H", it[5:7])[0]
        places += [at + head for head in range(9)]
        places += [at + 9 + 516 * put + head for put in range(puts) for head in range(16)]
        at += len(it)
    place = random.choice(places)
    image[place] = random.choice((0, 1, 2, 255, image[place] ^ 1, random.randrange(256)))


def header_for(random: Random, store: Store) -> bytes:
    """The header of a bank: of version 1 only where its directory can write the store, but for a few."""
    is_old = len(store.soups) <= MOST_OLD_SOUPS and not any(it.info for it in store.soups)
    return random.choice((HEADER, OLD_HEADER) if is_old or random.random() < 0.05 else (HEADER,))


def random_image(random: Random, store: Store, blocks: int) -> Optional[bytes]:
    """The image of a store with some damage or none, or nothing where it has no room in a bank."""
    objects = objects_of(random, store)
    harm = random.choice(("none", "objects", "objects", "bytes"))
    for _ in range(random.choice((1, 1, 2)) if harm == "objects" else 0):
        damaged(random, objects)
    records = records_of(random, pages_of(random, objects))
    size = (blocks - 3) // 2
    header = header_for(random, store)
    used = header + b"".join(records)
    if len(used) > BLOCK * size:
        return None
    bank = used + tail_of(random, BLOCK * size - len(used))
    other = random.choice((BLANK * len(bank), bytes(len(bank)), (header + record({}, [])).ljust(len(bank), BLANK)))
    chosen = random.randrange(2)
    votes = [it if it > 1 else chosen if it else 1 - chosen for it in random.choice(VOTES)]
    heads = b"".join(bytes([it]) + BLANK * (BLOCK - 1) for it in votes)
    image = bytearray(heads + (other + bank if chosen else bank + other)).ljust(BLOCK * blocks, BLANK)
    for _ in range(random.choice((1, 1, 2)) if harm == "bytes" else 0):
        struck(random, image, BLOCK * (3 + chosen * size), records)
    return bytes(image)
