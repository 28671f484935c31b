"""What is damaged in an image: the first of nine rows that holds, and where.

    python3 reference/check.py IMAGE..

prints for each image what the mode `check` says of it. Each row is said of the whole image; none repairs anything.
"""

import struct
import sys
from collections import Counter
from pathlib import Path

from images import BLOCK, HEADER, VERSIONS, NoStore, Record, read_entry
from stores import Store, capacity
from streams import pages


class Damaged(Exception):
    """A row holds at a place."""

    def __init__(self, layer: str, place: int):
        super().__init__(f"{layer} {place}")


def row(layer: str, places) -> None:
    """A row holds at the first of these places, where there is one."""
    for place in places:
        raise Damaged(layer, place)


def start_of_bank(image: bytes) -> int:
    votes = [image[BLOCK * it] for it in range(3)]
    chosen = 0 if votes.count(0) >= 2 else 1 if votes.count(1) >= 2 else votes[0]
    row("votes", [0] if chosen not in (0, 1) else [])
    return BLOCK * (3 + chosen * ((len(image) // BLOCK - 3) // 2))


def gates(image: bytes, start: int) -> list[tuple[int, memoryview]]:
    """Each gate of 0, with what of its bank stands after it."""
    end, found, whole = start + (len(image) // BLOCK - 3) // 2 * BLOCK, [], memoryview(image)
    at = start + len(HEADER)
    while at < end and image[at] == 0:
        found.append((at, whole[at + 1 : end]))
        at += 5 + int.from_bytes(image[at + 1 : min(at + 5, end)], "big")
    return found


def is_long(after: memoryview) -> bool:
    return len(after) < 4 or len(after) - 4 < int.from_bytes(after[:4], "big")


def change(after: memoryview) -> tuple[dict, list]:
    """What a record puts and what it deletes; NoStore where the payload has not its form."""
    payload = Record(bytes(after[4 : 4 + int.from_bytes(after[:4], "big")]))
    puts, deletes = payload.number(2), payload.number(2)
    payload.wants(payload.left() == 516 * puts + 4 * deletes)
    put = [(payload.number(4, 65_535), payload.take(512)) for _ in range(puts)]
    deleted = [payload.number(4, 65_535) for _ in range(deletes)]
    payload.wants(len({*dict(put), *deleted}) == puts + deletes)
    return dict(put), deleted


def fails(reading, *of) -> bool:
    try:
        reading(*of)
        return False
    except NoStore:
        return True


def pages_after(changes: list[tuple[dict, list]]) -> list[bytes]:
    live: dict[int, bytes] = {}
    for put, deleted in changes:
        live.update(put)
        for number in deleted:
            live.pop(number, None)
    return list(live.values())


def is_whole(parts: list[tuple[int, int, bytes]]) -> bool:
    """Whether the parts of an object are each there once, and all say its length."""
    lengths = {length for _, length, _ in parts}
    return len(lengths) == 1 and sorted(it[0] for it in parts) == [*range(pages(min(lengths)))]


def objects_of(live: list[bytes]) -> dict[int, bytes]:
    parts: dict[int, list] = {}
    for page in live:
        number, part, length = struct.unpack(">III", page[:12])
        parts.setdefault(number, []).append((part, length, page[12:]))
    row("object", sorted(number for number, found in parts.items() if not is_whole(found)))
    return {number: b"".join(it[2] for it in sorted(found))[: found[0][1]] for number, found in parts.items()}


def directory_of(objects: dict[int, bytes], version: int) -> Store:
    row("directory", [0] if 0 not in objects or fails(Record(objects[0]).directory, version) else [])
    return Record(objects[0]).directory(version)


def bad_entries(objects: dict[int, bytes], directory: Store):
    next_of, seen = {it.sig: it.next_uid for it in directory.soups}, set()
    for number in sorted(it for it in objects if it % 2):
        try:
            sig, entry = read_entry(objects[number], objects, [])
            if entry.uid >= next_of.get(sig, 0) or (sig, entry.uid) in seen:
                yield number
            seen.add((sig, entry.uid))
        except NoStore:
            yield number


def named_by(record: bytes) -> list[int]:
    count = int.from_bytes(record[2:4], "big")
    return [number for _, number, _ in struct.iter_unpack(">III", record[len(record) - 12 * count :])] if count else []


def report(image: bytes) -> str:
    blocks = len(image) // BLOCK
    if not 13 <= blocks <= 4099:
        return "error 27 blocks"
    try:
        start = start_of_bank(image)
        version = VERSIONS.get(image[start : start + len(HEADER)])
        row("header", [start] if version is None else [])
        found = gates(image, start)
        row("record", (at for at, after in found if is_long(after)))
        row("payload", (at for at, after in found if fails(change, after)))
        objects = objects_of(pages_after([change(after) for _, after in found]))
        directory = directory_of(objects, version)
        row("entry", bad_entries(objects, directory))
        named = Counter(it for number, record in objects.items() if number % 2 for it in named_by(record))
        row("large", sorted(it for it in objects if it > 0 and it % 2 == 0 and named[it] != 1))
        cost = sum(pages(len(it)) for it in objects.values())
        row("cost", [cost] if cost > capacity(blocks) else [])
        return f"ok clean {len(directory.soups)} {sum(it % 2 for it in objects)} {cost}"
    except Damaged as damage:
        return f"ok damaged {damage}"


if __name__ == "__main__":
    for name in sys.argv[1:]:
        print(report(Path(name).read_bytes()))
