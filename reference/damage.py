"""Streams, literals and lines bent at a few places, and images of stores with damage.

Most of the damage leaves what is checked of the levels below it as it has to be.
"""

import struct
from dataclasses import replace
from random import Random
from typing import Callable, Optional

from graphs import Array, Binary, Frame, Large, Symbol, Walk
from images import BLOCK, HEADER, OLD_HEADER
from layouts import BLANK, VOTES, objects_of, pages_of, record, records_of, tail_of
from stores import (
    MOST_OLD_SOUPS,
    MOST_SOUPS,
    Part,
    Soup,
    Store,
    Tags,
    capacity,
    cost,
    entry_of,
    info_bytes,
    tags_bytes,
)
from streams import Malformed, decode, encode, encode_flat, pages

TELLING_BYTES = b"\x00\x01\x02\x03\x04\x05\x06\x07\x08\x09\x0a\x0b\x0c\x0d\x7f\x80\xfe\xff"
TELLING_TEXT = b"\"\\|'$&#=:;,.*<>[]{} \t\r%-+0159aAfFzZ_~\x7f\xc3\xa9\xff\x00"
TELLING_NUMBERS = (0, 1, 2, 499, 500, 501, 999_999, 1_000_000, 1_000_001, 536_870_911, 536_870_912, 2**31, 2**32 - 1)


def like(random: Random, byte: int) -> int:
    """A byte of the same kind: a digit, a letter, a blank, or a number beside it."""
    for kind in (b"0123456789", b"abcdefABCDEF", b"ghijklmnopqrstuvwxyzGHIJKLMNOPQRSTUVWXYZ_", b" \t\r"):
        if byte in kind:
            return random.choice((random.choice(kind), byte ^ 32 if byte > 64 else byte))
    return byte ^ random.choice((1, 2, 4))


def softly_bent(random: Random, data: bytes, is_text: bool) -> bytes:
    """Bytes of which one to three are changed to others of their kind, or written in a longer form."""
    data = bytearray(data)
    for _ in range(random.randint(1, 3)):
        at = random.randrange(len(data))
        if random.random() < 0.5:
            data[at] = like(random, data[at])
        elif not is_text:
            data[at:at] = b"\xff\x00\x00\x00"
        elif data[at] in b",:[]{} ":
            data[at:at] = random.choice((b" ", b"\t", b"\r", b"  "))
    return bytes(data)


def bent(random: Random, data: bytes, telling: bytes, most: int = 3) -> bytes:
    """Bytes that are changed, taken out, put in, doubled, swapped or cut off at one to so many places."""
    if data and random.random() < 0.4:
        return softly_bent(random, data, telling is TELLING_TEXT)
    data = bytearray(data)
    for _ in range(random.randint(1, most)):
        at = random.randrange(len(data) + 1)
        other = random.randrange(len(data) + 1)
        kind = random.randrange(8)
        if kind < 3:
            data[at : at + 1] = bytes([random.choice(telling)])
        elif kind == 3:
            data[at : at + 1] = bytes([random.randrange(256)])
        elif kind == 4:
            del data[at : at + random.choice((1, 1, 2, 4))]
        elif kind == 5:
            data[at:at] = bytes(random.choices(telling, k=random.choice((1, 1, 2, 4))))
        elif kind == 6:
            data[at:at] = data[other : other + random.choice((1, 3, 9))]
        elif random.random() < 0.3:
            del data[at:]
        else:
            data[at : at + 1], data[other : other + 1] = data[other : other + 1], data[at : at + 1]
    return bytes(data)


# Stores at the limits.


def symbols(count: int, length: int = 3) -> tuple:
    return tuple(b"t%0*d" % (length - 1, number) for number in range(count))


def limit_soup(random: Random, soup: Soup) -> Soup:
    """A soup with one part at a limit, or past it."""
    past = random.randrange(2)
    part = Part((b"k",), "int", "ascend")
    return random.choice(
        (
            lambda: replace(soup, name=b"n" * (39 + past)),
            lambda: replace(soup, name=b"n" * (1 - past)),
            lambda: replace(soup, name=bytes([random.choice((31, 32, 34, 92, 126, 127, 128))])),
            lambda: replace(soup, specs=tuple((part._replace(path=(it,)),) for it in symbols(16 + past))),
            lambda: replace(soup, specs=(tuple(part._replace(path=(it,)) for it in symbols(4 + past)),)),
            lambda: replace(soup, specs=((part._replace(path=symbols(8 + past)),),)),
            lambda: replace(soup, specs=((part._replace(path=(b"a" * (254 + past),)),),)),
            lambda: replace(soup, specs=((part,), (part._replace(path=(b"K" if past else b"l",)),))),
            lambda: replace(soup, specs=((part._replace(path=()),),)),
            lambda: replace(soup, specs=((),)),
            lambda: replace(soup, tags=Tags((b"k",), symbols(64 + past))),
            lambda: replace(soup, tags=Tags((b"k",), (b"a", b"A" if past else b"b"))),
            lambda: replace(soup, tags=Tags((b"k",), ())),
            lambda: replace(soup, tags=Tags((b"1",) if past else (b"_",), (b"a",))),
            lambda: replace(soup, info=Frame([Symbol(b"b")], [Binary(Symbol(b"x"), bytes(3_985 + past))])),
            lambda: replace(soup, info=Frame([Symbol(b"b")], [Large(Symbol(b"x"), b"") if past else 4])),
            lambda: replace(soup, info=Array(None, []) if past else Frame([], [])),
            lambda: replace(soup, next_uid=536_870_911 + past),
            lambda: replace(soup, next_uid=max([it.uid for it in soup.entries], default=0) + 1 - past),
        )
    )()


def limit_store(random: Random, store: Store) -> Store:
    """A store with one part at a limit, or past it."""
    past = random.randrange(2)
    kind = random.randrange(10)
    if kind == 0:
        return replace(store, sig=536_870_911 + past)
    if kind == 1:
        return replace(store, next_soup=65_535)
    if kind == 2:
        return replace(store, name=random.choice((b"", b"a", b"a" * 39, b"a" * 40, b"\x1f", b"\x7f", b'"\\')))
    if kind == 3 and store.next_soup < 60_000:
        most = random.choice((MOST_OLD_SOUPS, MOST_SOUPS))
        more = tuple(Soup(b"soup %d" % it, store.next_soup + it) for it in range(most + past - len(store.soups)))
        return replace(store, soups=store.soups + more, next_soup=store.next_soup + len(more))
    if not store.soups:
        return store
    if kind == 4:
        last = store.soups[-1]
        if past:
            return replace(store, soups=store.soups[:-1] + (replace(last, name=random.choice(store.soups).name),))
        signatures = (last.sig, store.next_soup - 1, store.next_soup, 0, 65_535)
        return replace(store, soups=store.soups[:-1] + (replace(last, sig=random.choice(signatures)),))
    soup = random.choice(store.soups)
    return store.with_soup(limit_soup(random, soup))


def filled_store(random: Random, store: Store, blocks: int) -> Store:
    """A store whose cost is at most that of its unit, or one page more."""
    if not store.soups:
        return store
    soup, left = store.soups[0], capacity(blocks) - cost(store)
    wanted = left + random.randrange(2)
    large = Large(Symbol(b"w"), bytes(500 * max(0, wanted - 1)))
    small = entry_of(soup.next_uid, 0, Frame([Symbol(b"v")], [large]))
    return store.with_soup(soup.with_entry(small)) if wanted > 1 else store


def long_store(random: Random, store: Store) -> Store:
    """A store with an entry whose text has 64,000 bytes, or one more."""
    if not store.soups:
        return store
    store = replace(store, soups=tuple(replace(it, entries=()) for it in store.soups))
    soup = store.soups[0]
    data = Binary(Symbol(b"w"), bytes(64_000 - 15 + random.randrange(-1, 3)))
    return store.with_soup(soup.with_entry(entry_of(soup.next_uid, 0, Frame([Symbol(b"v")], [data]))))


# Objects with right pages and records around them.


def places_of(entry: bytes) -> list[tuple[int, int]]:
    """Where the list of large binaries of an entry record has its items, and the object that each names."""
    count = int.from_bytes(entry[2:4], "big")
    begin = len(entry) - 12 * count
    if begin < 12:
        return []
    return [(begin + 12 * it, struct.unpack(">I", entry[begin + 12 * it + 4 :][:4])[0]) for it in range(count)]


def name_anothers_large(random: Random, objects: dict[int, bytes]) -> None:
    """An entry names the large binary of another one, which may name that of the first in turn."""
    named = [(number, at, large) for number in objects if number % 2 for at, large in places_of(objects[number])]
    others = [it for it in objects if it % 2 == 0 and it]
    if not named or not others:
        return
    number, at, large = random.choice(named)
    other = random.choice(others)

    def name(record_number: int, place: int, target: int) -> None:
        data = bytearray(objects[record_number])
        length = len(objects.get(target, b"")) if random.random() < 0.8 else random.choice(TELLING_NUMBERS)
        data[place + 4 : place + 12] = struct.pack(">II", target, length)
        objects[record_number] = bytes(data)

    name(number, at, other)
    if random.random() < 0.2:
        objects.pop(large, None)
    elif random.random() < 0.7:
        for back, place, target in named:
            if target == other:
                name(back, place, large)


def set_number(random: Random, objects: dict[int, bytes]) -> None:
    """A number of an entry record is set to one that may tell."""
    entries = [it for it in objects if it % 2]
    if not entries:
        return
    number = random.choice(entries)
    data = bytearray(objects[number].ljust(12, b"\x00"))
    places = [(0, 2), (2, 2), (4, 4), (8, 4)]
    places += [(at + 4 * it, 4) for at, _ in places_of(objects[number]) for it in range(3)]
    at, length = random.choice(places)
    near = int.from_bytes(data[at : at + length], "big") + random.choice((-1, 1))
    chosen = random.choice((near, *TELLING_NUMBERS)) % 256**length
    data[at : at + length] = chosen.to_bytes(length, "big")
    objects[number] = bytes(data)


def miscount_larges(random: Random, objects: dict[int, bytes]) -> None:
    """An entry lists one large binary more than its text has, or one fewer."""
    entries = [it for it in objects if it % 2]
    if not entries:
        return
    number = random.choice(entries)
    data, places = objects[number], places_of(objects[number])
    more = random.random() < 0.5 or not places
    objects[number] = data[:2] + (len(places) + (1 if more else -1)).to_bytes(2, "big") + data[4:]
    if more:
        even = random.choice([it for it in objects if it and it % 2 == 0] or [2])
        objects[number] += struct.pack(">III", random.randrange(4), even, len(objects.get(even, b"")))
        objects.setdefault(even, b"")
    else:
        objects[number] = objects[number][:-12]


def respell(random: Random, objects: dict[int, bytes]) -> None:
    """The text of an entry is another one of its graph, or nearly so; its large binaries may have bytes there."""
    entries = [it for it in objects if it % 2]
    if not entries:
        return
    with_larges = [it for it in entries if places_of(objects[it])]
    number = random.choice(random.choice((entries, with_larges or entries)))
    data = objects[number]
    end = len(data) - 12 * len(places_of(data))
    skeleton = data[12:end]
    kind = random.randrange(4)
    try:
        graph, _ = decode(skeleton)
    except Malformed:
        return
    if kind == 0:
        for large in Walk(graph).larges():
            large.data = bytes(random.choice((0, 1, 12)))
        skeleton = random.choice((encode, encode_flat))(graph)
    elif kind == 1:
        other = random.choice((2, Array(None, [graph]), Frame([Symbol(b"k")], [graph])))
        skeleton = encode_flat(other, is_skeleton=True)
    elif kind == 2:
        skeleton = skeleton.replace(*random.choice(((b"\x0a", b"\x00\x02"), (b"\x06", b"\x06\xff\0\0\0"))), 1)
    else:
        skeleton = softly_bent(random, skeleton, False)
    objects[number] = data[:12] + skeleton + data[end:]


def double_entry(random: Random, objects: dict[int, bytes]) -> None:
    """An entry record stands twice, under its own id or another one, and each names the same large binaries."""
    entries = [it for it in objects if it % 2]
    with_larges = [it for it in entries if places_of(objects[it])]
    if entries:
        data = objects[random.choice(random.choice((entries, with_larges or entries)))]
        uid = random.choice((data[4:8], random.randrange(12).to_bytes(4, "big")))
        objects[random.choice((7001, 2**32 - 1))] = data[:4] + uid + data[8:]


def rename_object(random: Random, objects: dict[int, bytes]) -> None:
    """An object goes to another number, of its own kind or not."""
    number = random.choice(list(objects))
    data = objects.pop(number)
    objects[random.choice((0, 1, 2, 3, 7000, 7001, 2**32 - 2, 2**32 - 1))] = data


def lengthen(random: Random, objects: dict[int, bytes]) -> None:
    """Bytes more or less at the end of an object, over the edges of its pages."""
    number = random.choice(list(objects))
    data = objects[number]
    count = random.choice((0, 1, 12, 499, 500, 501, len(data) - 1, len(data) + 1, len(data) + 12, len(data) + 500))
    objects[number] = data[: max(0, count)].ljust(max(0, count), b"\x00")


def bend_directory(random: Random, objects: dict[int, bytes]) -> None:
    """One byte of the directory is another one, as a count, a type, a direction or a letter might be."""
    data = bytearray(objects.get(0, b"\x00"))
    if data:
        at = random.randrange(len(data))
        data[at] = random.choice((0, 1, 2, 3, 4, 255, data[at] ^ 1, data[at] ^ 32, data[at] ^ 128))
    objects[0] = bytes(data)


def bend_flags(random: Random, store: Store, objects: dict[int, bytes]) -> None:
    """The byte that says whether a soup has a declaration of tags and an info frame says something else."""
    told = [tags_bytes(it.tags) + info_bytes(it.info) for it in store.soups if it.tags or it.info]
    if told:
        before, own, after = objects[0].partition(random.choice(told))
        objects[0] = before[:-1] + bytes([random.choice((0, 1, 2, 3, 4, 255))]) + own + after


OBJECT_DAMAGE = (
    *(name_anothers_large, set_number, respell, respell, double_entry, rename_object, lengthen),
    *(miscount_larges, bend_directory, bend_directory),
)


# Pages and records.


def swap_pages(random: Random, found: list[bytes]) -> None:
    """Two pages change their heads, or a part of them, so that each object has a page of the other."""
    one, other = random.randrange(len(found)), random.randrange(len(found))
    begin, end = random.choice(((0, 12), (0, 4), (4, 8), (8, 12), (0, 8), (4, 12)))
    heads = found[one][begin:end], found[other][begin:end]
    found[one] = found[one][:begin] + heads[1] + found[one][end:]
    found[other] = found[other][:begin] + heads[0] + found[other][end:]


def set_length(random: Random, found: list[bytes]) -> None:
    """All pages of one object tell another length, or one of them tells another part or length."""
    number = random.choice(found)[:4]
    chosen = random.choice(TELLING_NUMBERS)
    for at, page in enumerate(found):
        if page[:4] == number:
            length = struct.unpack(">I", page[8:12])[0]
            near = random.choice((length - 1, length + 1, 500 * pages(length), 500 * pages(length) + 1))
            begin = random.choice((8, 8, 8, 4))
            given = chosen if random.random() < 0.5 else near
            found[at] = page[:begin] + (given % 2**32).to_bytes(4, "big") + page[begin + 4 :]
            if random.random() < 0.5:
                return


PAGE_DAMAGE = (swap_pages, swap_pages, set_length)


def splice(random: Random, records: list[bytes], others: list[bytes]) -> None:
    """A record of this image or of another one stands at another place, once more, or is gone."""
    kind = random.randrange(5)
    at = random.randrange(len(records) + 1)
    if kind == 0 and records:
        del records[min(at, len(records) - 1)]
    elif kind == 1 and records:
        records.insert(at, records.pop(random.randrange(len(records))))
    elif kind == 2:
        numbers = [random.choice((0, 1, 2, 3, 5, 65_535, 65_536)) for _ in range(random.choice((0, 1, 2)))]
        records.insert(at, record({}, numbers))
    else:
        records.insert(at, random.choice(random.choice((records, others)) or [record({}, [])]))


def miscount(random: Random, records: list[bytes]) -> None:
    """A record tells other counts, or another length of its payload."""
    if not records:
        return
    at = random.randrange(len(records))
    data = bytearray(records[at])
    place, length = random.choice(((1, 4), (5, 2), (7, 2), (9, 4), (0, 1)))
    value = int.from_bytes(data[place : place + length], "big")
    chosen = random.choice((value - 1, value + 1, value + 4, value - 516, value + 516, 0, 256**length - 1, 65_536))
    data[place : place + length] = (chosen % 256**length).to_bytes(length, "big")
    records[at] = bytes(data)


def image_of(random: Random, records: list[bytes], blocks: int) -> Optional[bytes]:
    """An image whose chosen bank has these records, or nothing where they have no room. Few have another header."""
    size = BLOCK * ((blocks - 3) // 2)
    header = bytearray(random.choice((HEADER, OLD_HEADER)))
    header[random.randrange(len(header))] ^= random.choice((0,) * 24 + (1, 32))
    used = bytes(header) + b"".join(records)
    if len(used) > size:
        return None
    bank = used + tail_of(random, size - len(used))
    other = random.choice((BLANK * size, random.randbytes(size), (HEADER + record({}, [])).ljust(size, BLANK)))
    chosen = random.randrange(2)
    votes = [it if it > 1 else chosen if it else 1 - chosen for it in random.choice(VOTES)]
    heads = b"".join(bytes([it]) + BLANK * (BLOCK - 1) for it in votes)
    return (heads + (other + bank if chosen else bank + other)).ljust(BLOCK * blocks, BLANK)


def struck_anywhere(random: Random, image: bytes) -> bytes:
    """Plain damage: bytes changed anywhere, a stretch of other bytes, or two stretches swapped."""
    data = bytearray(image)
    for _ in range(random.choice((1, 1, 2, 5))):
        at, other = random.randrange(len(data)), random.randrange(len(data))
        length = random.choice((1, 1, 1, 4, 12, 516, BLOCK))
        stretch, swapped = data[at : at + length], data[other : other + length]
        if random.random() < 0.8:
            stretch = random.choice((bytes(length), BLANK * length, random.randbytes(length)))[: len(stretch)]
            data[at : at + len(stretch)] = stretch
        elif len(stretch) == len(swapped):
            data[at : at + length], data[other : other + length] = swapped, stretch
    return bytes(data)


def hostile_image(random: Random, store: Store, blocks: int, records: list, others: list) -> Optional[bytes]:
    """An image that is damaged in one way: in its store, objects, pages or records.

    The last are those of an image that the program wrote, and those of another one.
    """
    way = random.choice((*["store"] * 5, *["objects"] * 3, "pages", "records", "records", "counts"))
    if way in ("records", "counts"):
        records = list(records)
        for _ in range(random.choice((1, 1, 2))):
            splice(random, records, others) if way == "records" else miscount(random, records)
        return image_of(random, records, blocks)
    if way == "store":
        make: Callable = random.choice((*[limit_store] * 6, lambda *it: filled_store(*it, blocks), long_store))
        store = make(random, store)
    objects = objects_of(random, store)
    if way == "store" and random.random() < 0.1:
        bend_flags(random, store, objects)
    for _ in range(random.choice((1, 1, 2)) if way == "objects" else 0):
        random.choice(OBJECT_DAMAGE)(random, objects)
    found = pages_of(random, objects)
    for _ in range(random.choice((1, 1, 2)) if way == "pages" else 0):
        random.choice(PAGE_DAMAGE)(random, found)
    several = records_of(random, list(found))
    whole = [record(dict(enumerate(found)), [])]
    return image_of(random, several, blocks) or image_of(random, whole, blocks)
