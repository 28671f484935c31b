"""The backup of a store: one graph that has the bytes of its directory and of each of its entries, and the way back.

    python3 reference/backups.py FOLDER [PROGRAM]

compares, for each NAME.img of a folder, the backup of the store that it is read as with NAME.nsof, and that store with
the one that NAME.nsof gives to a blank device. Where a program is given, both are done by it too. It prints how many
agree, and ends with 0 where all do.
"""

import subprocess
import sys
import tempfile
from dataclasses import replace
from pathlib import Path
from typing import Optional

from graphs import Array, Binary, Frame, Ref, Symbol
from images import BLOCK, NoStore, Record, flat_graph, is_same_store, store_of_image, wants
from replies import Refused, of_name, of_refusal
from stores import LEAST_BLOCKS, MOST_BLOCKS, MOST_SKELETON, Entry, Soup, Store, capacity, cost, directory, entry_of
from streams import Malformed, decode, encode, encode_flat

PIECE = 500_000


def full(soup: Soup, entry: Entry) -> bytes:
    """An entry whole: the signature of its soup, its id, its minute, and its graph with its large binaries."""
    head = soup.sig.to_bytes(2, "big") + entry.uid.to_bytes(4, "big") + entry.time.to_bytes(4, "big")
    return head + encode_flat(entry.graph)


def backup(store: Store) -> Frame:
    """The backup as a graph. Its symbols are shared, and nothing else is."""
    kind = Symbol(b"bytes")

    def cut(data: bytes) -> Array:
        pieces = [data[at : at + PIECE] for at in range(0, len(data), PIECE)]
        return Array(None, [Binary(kind, piece) for piece in pieces])

    entries = [full(soup, entry) for soup in store.soups for entry in sorted(soup.entries, key=lambda it: it.uid)]
    tags = [Symbol(b"directory"), Symbol(b"entries")]
    return Frame(tags, [cut(directory(store)), Array(None, [cut(data) for data in entries])])


def joined(cut: Ref) -> bytes:
    """The bytes of which a graph has the pieces."""
    wants(isinstance(cut, Array) and all(isinstance(it, Binary) for it in cut.values))
    return b"".join(it.data for it in cut.values)


def read_full(data: bytes) -> tuple[int, Entry]:
    """The soup and the entry that bytes are."""
    text = Record(data)
    sig, uid, time = text.number(2), text.number(4), text.number(4)
    graph = flat_graph(text.take(text.left()))
    wants(isinstance(graph, Frame) and len(encode_flat(graph, is_skeleton=True)) <= MOST_SKELETON)
    return sig, entry_of(uid, time, graph)


def store_of_backup(graph: Ref) -> Optional[Store]:
    """The store that has this backup: what is read of it, if this is a store, and the very graph is its backup."""
    try:
        wants(isinstance(graph, Frame) and len(graph.values) == 2 and isinstance(graph.values[1], Array))
        store = Record(joined(graph.values[0])).directory(2)
        found = [read_full(joined(it)) for it in graph.values[1].values]
        soups = [replace(it, entries=tuple(entry for sig, entry in found if sig == it.sig)) for it in store.soups]
        wants(all(entry.uid < it.next_uid for it in soups for entry in it.entries))
        wants(all(len({entry.uid for entry in it.entries}) == len(it.entries) for it in soups))
        store = replace(store, soups=tuple(soups))
        wants(cost(store) <= capacity(MOST_BLOCKS) and encode_flat(backup(store)) == encode_flat(graph))
        return store
    except NoStore:
        return None


def of_device(image: Optional[bytes]) -> Optional[Store]:
    """The store of a device that is there and has as many blocks as one may have."""
    if image is None:
        raise Refused(20)
    if not LEAST_BLOCKS <= len(image) // BLOCK <= MOST_BLOCKS:
        raise Refused(27)
    return store_of_image(image)


def backed(image: Optional[bytes]) -> bytes:
    """What the mode `backup` writes of a device."""
    try:
        store = of_device(image)
        if store is None:
            raise Refused(22)
        return encode(backup(store))
    except Refused as refused:
        return f"{of_refusal(refused)}\n".encode()


def asked(stream: bytes) -> Store:
    """The store that a stream is the backup of."""
    try:
        graph, is_compressed = decode(stream)
    except Malformed as fault:
        raise Refused(1) from fault
    store = None if is_compressed else store_of_backup(graph)
    if store is None:
        raise Refused(2 if is_compressed else 51)
    return store


def restored(stream: bytes, image: Optional[bytes]) -> tuple[str, Optional[Store]]:
    """What the mode `restore` answers, and the store that the device then has, if it gets one."""
    try:
        store = asked(stream)
        if of_device(image) is not None:
            raise Refused(26)
        if cost(store) > capacity(len(image) // BLOCK):
            raise Refused(33)
        return f"ok {store.sig} {of_name(store.name)}", store
    except Refused as refused:
        return of_refusal(refused), None


def agrees(image: bytes, stream: bytes) -> bool:
    blank = bytes(len(image))
    store, (_, again) = store_of_image(image), restored(stream, blank)
    return store is not None and again is not None and backed(image) == stream and is_same_store(store, again)


def agrees_by_program(program: Path, image: bytes, stream: bytes) -> bool:
    with tempfile.TemporaryDirectory() as folder:

        def ran(mode: str, given: bytes, device: bytes) -> tuple[bytes, bytes]:
            file = Path(folder, "device")
            file.write_bytes(device)
            output = subprocess.run([program, mode, file], input=given, capture_output=True, check=True).stdout
            return output, file.read_bytes()

        blank = bytes(len(image))
        reply, filled = ran("restore", stream, blank)
        is_kept = ran("backup", b"", image) == (stream, image) and ran("backup", b"", filled) == (stream, filled)
        return is_kept and reply.decode() == restored(stream, blank)[0] + "\n"


def main(folder: str, program: str = "") -> int:
    images = sorted(Path(folder).glob("*.img"))
    differ = []
    for image in images:
        both = image.read_bytes(), image.with_suffix(".nsof").read_bytes()
        if not agrees(*both) or program and not agrees_by_program(Path(program).resolve(), *both):
            differ.append(image.name)
    print(f"{len(images) - len(differ)} of {len(images)} backups agree", *differ)
    return 1 if differ else 0


if __name__ == "__main__":
    sys.exit(main(*sys.argv[1:]))
