"""Backs stores up by the program and restores them, whole, cut and bent, and compares the replies and what is left.

usage: python3 reference/restores.py PROGRAM FIRST COUNT TIMES

For each seed, of FIRST and COUNT after one another: a store that the program wrote after a random script, or an
image that is made at random, damaged or not, is backed up; the stream, or that of a store at a limit, is restored to
devices of other sizes, the least that has room for it and the greatest that has none among them, to such as hold a
store, to damaged ones and to none; what was restored is backed up again, with the same bytes, and a script is played
over it and over the first image. Then the stream is cut and bent, TIMES times in each of three ways. Where TIMES is
not 0, runs of both modes are stopped, and calls of their device fail, by the library torn.c, which needs a C compiler,
cc. It ends with 1 at the first difference, whose files stay.
"""

import sys
from dataclasses import replace
from random import Random
from typing import Callable, Optional

from backups import backed, backup, restored
from bench import Bench, Differs, over_seeds
from check import report
from damage import (
    TELLING_BYTES,
    TELLING_NUMBERS,
    bent,
    filled_store,
    hostile_image,
    limit_store,
    long_store,
    struck_anywhere,
)
from graphs import Array, Binary, Frame, Large, Ref, Symbol, copied
from images import BLOCK, is_same_store, payloads, store_of_image
from layouts import random_image
from scripts import written
from stores import MOST_BLOCKS, Soup, Store, capacity, cost, entry_of
from streams import decode, encode, encode_flat
from torn import STOPPED
from world import Unit, World

BLOCKS = (13, 13, 14, 16, 24, 40)


class Restores(Bench):
    """Runs of the two modes over one file, each compared with the reference."""

    def files(self) -> list:
        return [self.folder / "device"]

    def mode(self, word: str, stream: bytes, image: Optional[bytes], **torn: object) -> tuple[int, bytes, bytes]:
        """The status, the output, and what is left of a device; where there is none, no file has the name."""
        [file] = self.files()
        file.unlink(missing_ok=True)
        if image is not None:
            file.write_bytes(image)
        ran = self.ran([word, file], stream, **torn)
        self.counts[word] += 1
        return ran.returncode, ran.stdout, b"" if image is None else file.read_bytes()

    def backup(self, image: Optional[bytes]) -> bytes:
        status, output, left = self.mode("backup", b"", image)
        if (status, output) != (0, backed(image)):
            raise Differs(f"backup: {status}, {output[:100]!r}, wanted {backed(image)[:100]!r}")
        if left != (image or b""):
            raise Differs("backup changes the image")
        return output

    def restore(self, stream: bytes, image: Optional[bytes]) -> Optional[bytes]:
        """The image with the store of a stream, or nothing where it is refused."""
        reply, store = restored(stream, image)
        status, output, left = self.mode("restore", stream, image)
        self.counts[" ".join(reply.split()[:2]) if store is None else "restored"] += 1
        if (status, output.decode()) != (0, f"{reply}\n"):
            raise Differs(f"restore of {stream[:2000].hex()}: {status}, {output!r}, wanted {reply!r}")
        if store is None and left != (image or b""):
            raise Differs(f"restore of {stream[:2000].hex()} is refused, and changes the image")
        if store is not None:
            self.holds(left, store)
            if self.library and self.told()[2]:
                raise Differs("a restore has answered before all of the store is made sure of")
        return None if store is None else left

    def restore_and_back_up(self, stream: bytes, image: Optional[bytes]) -> Optional[bytes]:
        left = self.restore(stream, image)
        if left is not None and self.backup(left) != stream:
            raise Differs("what is restored has another backup")
        return left

    def holds(self, image: bytes, store: Store) -> None:
        found = store_of_image(image)
        if found is None or not is_same_store(found, store):
            raise Differs(f"another store is restored: {found}")

    def play(self, image: bytes, script: list, wanted: list, store: Optional[Store]) -> None:
        """Plays a script over a file of this image, which then has this store."""
        [file] = self.files()
        file.write_bytes(image)
        _, found = self.replies(script, (0,))
        if found != wanted:
            at = next((at for at, it in enumerate(zip(found, wanted)) if it[0] != it[1]), len(found))
            raise Differs(f"reply {at}: {found[at : at + 1]}, wanted {wanted[at : at + 1]}")
        self.counts["replies"] += len(wanted)
        if store is not None:
            self.holds(file.read_bytes(), store)


# What is backed up.


def first_image(bench: Restores, random: Random) -> bytes:
    """What the program leaves after a random script, or an image that is made at random."""
    unit = Unit(random.choice(BLOCKS))
    script, wanted = written(random, World([unit]), 1, random.choice((12, 40, 120)))
    bench.play(bytes(BLOCK * unit.blocks), script, wanted, unit.store)
    image = bench.images()[0]
    way = random.choice(("program", "program", "layout", "hostile"))
    if way == "layout":
        return random_image(random, unit.store, unit.blocks) or image
    if way == "hostile":
        records = [b"\x00" + len(it).to_bytes(4, "big") + it for it in payloads(image)]
        return hostile_image(random, unit.store, unit.blocks, records, records) or image
    return image


def pieced_store(random: Random, store: Store) -> Store:
    """A store with an entry whose bytes are cut into several pieces."""
    soup = store.soups[0] if store.soups else Soup(b"P", store.next_soup)
    store = store if store.soups else replace(store, soups=(soup,), next_soup=soup.sig + 1)
    length = random.choice((499_900, 500_000, 1_000_000)) - random.randrange(100)
    values = [Large(Symbol(b"w"), random.randbytes(length)) for _ in range(random.choice((1, 1, 2)))]
    tags = [Symbol(b"v%d" % it) for it in range(len(values))]
    return store.with_soup(soup.with_entry(entry_of(soup.next_uid, 5, Frame(tags, values))))


def greatest_store(random: Random, store: Store) -> Store:
    """A store with as many pages as the largest device has, or one more."""
    soup = replace(store.soups[0], entries=()) if store.soups else Soup(b"G", 0)
    store = replace(store, soups=(soup,), next_soup=soup.sig + 1)
    left = capacity(MOST_BLOCKS) - cost(store) + random.randrange(2)
    while left > 1:
        taken = min(left, 2001)
        large = Large(Symbol(b"w"), bytes(500 * (taken - 1)))
        soup = soup.with_entry(entry_of(soup.next_uid, 5, Frame([Symbol(b"v")], [large])))
        left -= taken
    return store.with_soup(soup)


def other_stores(random: Random, store: Store) -> list[Store]:
    """Stores at a limit or past it, and with as many pages as a device has, or one more."""
    rare = random.choice((limit_store, long_store, long_store, pieced_store))
    rare = greatest_store if random.random() < 0.06 else rare
    filled = filled_store(random, store, random.choice(BLOCKS))
    return [limit_store(random, store), limit_store(random, store), filled, rare(random, store)]


# Where it is restored to.


def near(store: Store) -> list[bytes]:
    """Blank devices: the greatest that has no room for a store, and the least that has."""
    blocks = next((it for it in range(13, MOST_BLOCKS) if capacity(it) >= cost(store)), MOST_BLOCKS)
    return [bytes(BLOCK * it) for it in sorted({max(13, blocks - 1), blocks})]


def devices(random: Random, store: Store, image: bytes) -> list[Optional[bytes]]:
    """Blank devices of other sizes, such as are used or damaged, and none."""
    blocks = [12, 13, len(image) // BLOCK + random.randrange(20)]
    blocks += [random.choice((MOST_BLOCKS, MOST_BLOCKS + 1))] if random.random() < 0.03 else []
    used = [image, struck_anywhere(random, image), random.randbytes(BLOCK * 13 + random.randrange(BLOCK))]
    return [*near(store), *[b"\xff" * (BLOCK * it) for it in blocks], *used, *[None] * (random.random() < 0.1)]


# Streams that are cut and bent.


def slots_of(graph: Frame) -> tuple[Array, Array]:
    return graph.values[0], graph.values[1]


def any_cut(random: Random, graph: Frame) -> Array:
    directory, entries = slots_of(graph)
    return random.choice([directory, *entries.values])


def an_entry(random: Random, graph: Frame) -> Binary:
    """The first piece of an entry, of the last one as often as not."""
    entries = graph.values[1].values
    return random.choice((random.choice(entries), entries[-1])).values[0]


def renumbered(random: Random, data: bytes) -> bytes:
    """An entry with another signature, id or time."""
    at, length = random.choice(((0, 2), (2, 4), (2, 4), (6, 4)))
    number = int.from_bytes(data[at : at + length], "big")
    other = random.choice((number + 1, number - 1, random.choice(TELLING_NUMBERS))) % 256**length
    return data[:at] + other.to_bytes(length, "big") + data[at + length :]


def rooted(random: Random, data: bytes) -> bytes:
    """An entry whose graph is no frame."""
    return data[:10] + encode_flat(random.choice((2, 4, Symbol(b"a"), Array(None, [4]))))


def respelt(data: bytes) -> bytes:
    """An entry with the written text of its graph."""
    return data[:10] + encode(decode(data[10:])[0]) if data[10:11] == b"\x02" else data


def split(random: Random, cut: Array) -> None:
    at = random.randrange(len(cut.values))
    piece = cut.values[at]
    half = random.randint(0, len(piece.data))
    cut.values[at : at + 1] = [Binary(piece.kind, piece.data[:half]), Binary(piece.kind, piece.data[half:])]


def swap(random: Random, values: list) -> None:
    one, other = random.choices(range(len(values)), k=2)
    values[one], values[other] = values[other], values[one]


def bent_graph(random: Random, graph: Frame) -> Ref:
    """The graph of a backup that is another one at a place, or in another order, or shares what it has twice."""
    directory, entries = slots_of(graph)
    kind = directory.values[0].kind

    def put(data: Callable, piece: Binary) -> None:
        piece.data = data(piece.data)

    bends: list[Callable] = [
        lambda: swap(random, entries.values),
        lambda: entries.values.pop(random.randrange(len(entries.values))),
        lambda: entries.values.append(copied(random.choice(entries.values))),
        lambda: entries.values.append(random.choice(entries.values)),
        *[lambda: put(lambda it: renumbered(random, it), an_entry(random, graph))] * 4,
        lambda: put(lambda it: rooted(random, it), an_entry(random, graph)),
        lambda: put(respelt, an_entry(random, graph)),
    ]
    bends = bends if entries.values else []
    bends += [
        *[lambda: put(lambda it: bent(random, it, TELLING_BYTES), random.choice(any_cut(random, graph).values))] * 3,
        lambda: split(random, any_cut(random, graph)),
        lambda: any_cut(random, graph).values.append(random.choice((Binary(kind, b""), 2, 8, directory))),
        lambda: any_cut(random, graph).values.clear(),
        lambda: setattr(kind, "name", random.choice((b"Bytes", b"byte", b"bytes "))),
        lambda: setattr(graph.tags[random.randrange(2)], "name", random.choice((b"Directory", b"ENTRIES", b"entrie"))),
        lambda: (graph.tags.reverse(), graph.values.reverse()),
        lambda: (graph.tags.append(Symbol(b"also")), graph.values.append(2)),
        lambda: (graph.tags.pop(), graph.values.pop()),
        lambda: graph.values.__setitem__(random.randrange(2), random.choice((2, 0, kind, graph))),
        lambda: setattr(random.choice((directory, entries, any_cut(random, graph))), "kind", kind),
        lambda: directory.values.__setitem__(0, Large(kind, directory.values[0].data)),
        lambda: directory.values.__setitem__(0, Binary(Symbol(b"data"), directory.values[0].data)),
    ]
    random.choice(bends)()
    return random.choice((graph, graph, graph, graph, Array(None, [graph]))) if random.random() < 0.1 else graph


def bent_streams(random: Random, store: Store, stream: bytes, times: int) -> list[bytes]:
    """The stream cut off, with other bytes, and of other graphs."""
    marked = encode(Frame([Symbol(b"directory")], [Large(Symbol(b"zz"), b"")])).replace(b"zz\x00", b"zz\x01")
    found = [marked, stream + b"\x00", b"", b"\x02\x0a"]
    for _ in range(times):
        found.append(stream[: random.randrange(len(stream))])
        found.append(bent(random, stream, TELLING_BYTES))
        found.append(encode(bent_graph(random, copied(backup(store)))))
    return found


# Stops and failing calls.


def stop(bench: Restores, random: Random, stream: bytes, image: bytes) -> None:
    """Stops a run at a call of its device: nothing is answered yet, and a refused one leaves what was there."""
    store, seed = restored(stream, image)[1], random.randrange(2**32)
    bench.mode("restore", stream, image, seed=seed)
    at = random.randint(1, bench.told()[0])
    status, output, left = bench.mode("restore", stream, image, seed=seed, stop=at)
    if status != STOPPED or output:
        raise Differs(f"stopped at call {at}: {status}, {output!r}")
    if store is None and left != image:
        raise Differs(f"stopped at call {at}, a restore that is refused changes the image")
    bench.counts["stops"] += 1


def fail(bench: Restores, random: Random, word: str, stream: bytes, image: bytes) -> None:
    """Lets a call of the device fail after its attach: the run ends with that, and nothing is written."""
    store = restored(stream, image)[1] if word == "restore" else None
    bench.mode(word, stream, image, reads=1)
    calls = bench.told()[0]
    if calls < 2:
        return
    at = random.randint(2, calls)
    status, output, left = bench.mode(word, stream, image, reads=1, fail=at, seed=random.randrange(2**32))
    if (status, output) != (4, b""):
        raise Differs(f"{word}, call {at} fails: {status}, {output[:100]!r}")
    if store is None and left != image:
        raise Differs(f"{word}, call {at} fails: the image is changed")
    bench.counts["failing calls"] += 1


def compared(bench: Restores, seed: int, times: int) -> None:
    random = Random(seed)
    image = first_image(bench, random)
    blocks = len(image) // BLOCK
    stream, store = bench.backup(image), store_of_image(image)
    if store is None:
        return
    bench.counts["stores"] += 1
    again = bench.restore_and_back_up(stream, bytes(len(image)))
    if report(again) != (told := bench.mode("check", b"", again)[1].decode().strip()):
        raise Differs(f"check of what is restored: {told}")
    unit = Unit(blocks, store)
    script, wanted = written(random, World([unit]), 1, random.choice((40, 120)))
    for start in (image, again):
        bench.play(start, script, wanted, unit.store)
    for device in devices(random, store, image):
        bench.restore_and_back_up(stream, device)
    for other in other_stores(random, store):
        for device in near(other):
            bench.restore_and_back_up(encode(backup(other)), device)
    for given in bent_streams(random, store, stream, max(1, times)):
        bench.restore(given, random.choice((bytes(BLOCK * 13), bytes(len(image)), image)))
    for _ in range(times if bench.library else 0):
        for device in (bytes(len(image)), image):
            stop(bench, random, stream, device)
            fail(bench, random, random.choice(("backup", "restore")), stream, device)


if __name__ == "__main__":
    sys.exit(over_seeds(Restores, compared, *sys.argv[1:]))
