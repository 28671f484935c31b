#!/usr/bin/env python3
"""The program once more: the modes of `newton` over files, answered by this reference.

usage: python3 reference/newton.py MODE [WORD..]

It ends with 0, or with 2 where the words name no mode and 7 where the input is too long; other faults are Python's own.
A script is answered line by line as it comes. Only after it are its stores written: a file whose store has changed
gets one record with all of its pages, in bank 0.
"""

import re
import struct
import sys
from pathlib import Path
from typing import BinaryIO, Iterable, Iterator, Optional

from backups import backed, restored
from check import report
from commands import MOST_INPUT, run
from graphs import Walk
from images import BLOCK, HEADER, store_of_image
from layouts import BLANK, record
from lines import NUMBER, NoForm, Words
from literals import NoLiteral, print_literal, read_literal
from stores import Store, directory
from streams import Malformed, decode, encode, encode_flat, pages
from world import Unit, World

USAGE, TOO_LONG = 2, 7
MOST_NAMES = 10_000


def objects_of(store: Store) -> dict[int, bytes]:
    """The objects of a store: records under odd numbers from 1 on, large binaries under even ones from 2 on."""
    objects, last = {0: directory(store)}, 0
    entries = [(soup, entry) for soup in store.soups for entry in soup.entries]
    for number, (soup, entry) in enumerate(entries):
        walk, places = Walk(entry.graph), b""
        for large in walk.larges():
            last += 2
            objects[last] = large.data
            places += struct.pack(">III", walk.numbers[id(large)], last, len(large.data))
        head = struct.pack(">HHII", soup.sig, len(walk.larges()), entry.uid, entry.time)
        objects[2 * number + 1] = head + encode_flat(entry.graph, is_skeleton=True) + places
    return objects


def image_of(store: Store, blocks: int) -> bytes:
    found = [
        struct.pack(">III", number, part, len(data)) + data[500 * part : 500 * part + 500].ljust(500, b"\x00")
        for number, data in objects_of(store).items()
        for part in range(pages(len(data)))
    ]
    votes = (b"\x00" + BLANK * (BLOCK - 1)) * 3
    return (votes + HEADER + record(dict(enumerate(found)), [])).ljust(BLOCK * blocks, BLANK)


def image(name: str) -> Optional[bytes]:
    return Path(name).read_bytes() if Path(name).is_file() else None


def units_of(names: list[str]) -> list[Optional[Unit]]:
    images = map(image, names)
    return [None if it is None else Unit(len(it) // BLOCK, store_of_image(it)) for it in images]


def keep(name: str, unit: Unit, before: Optional[Store]) -> None:
    if unit.store is not before:
        after = image(name)[BLOCK * unit.blocks :]
        Path(name).write_bytes(image_of(unit.store, unit.blocks) + after)


def replies(names: list[str], script: Iterable[bytes]) -> Iterator[str]:
    """The replies to the lines of a script over files as they come. After the script the files have its stores."""
    units = units_of(names)
    before = [it and it.store for it in units]
    try:
        yield from run(World(units), script)
    finally:
        for name, unit, store in zip(names, units, before):
            if unit is not None:
                keep(name, unit, store)


def shown_answer(stream: bytes) -> bytes:
    try:
        graph, is_compressed = decode(stream)
    except Malformed:
        return b"error 1 malformed\n"
    return b"error 2 compressed\n" if is_compressed else f"ok {print_literal(graph)}\n".encode()


def packed_answer(text: bytes) -> bytes:
    try:
        return encode(read_literal(text))
    except NoLiteral:
        return b"error 3 literal\n"


def generated(seed: int, count: int) -> list[bytes]:
    """The lines of the generated script of a seed and a count."""
    drawn = seed % 2**31
    lines = ["format 0 Gen 1", "mount 0", "soup 0 Names", "index 0 Names name.last:string:ascend"]
    lines.append("tags 0 Names labels business personal")
    for number in range(count):
        drawn = (1_103_515_245 * drawn + 12_345) % 2**31
        first, last, is_odd = drawn // 65_536 % 90, drawn // 65_536 % 1000, drawn // 65_536 % 2
        label = "personal" if is_odd else "business"
        name = f'{{first: "F{first}", last: "L{last}"}}'
        lines.append(f"add 0 Names {{name: {name}, labels: '{label}, n: {number}}}")
    lines += ["query 0 Names {indexPath: [pathExpr: 'name, 'last]}", "entry 0", *["next 0"] * count]
    return [it.encode() for it in (*lines, "count 0", "unmount 0", "quit")]


def decimal(word: str, most: int) -> Optional[int]:
    try:
        number = NUMBER(Words(word.encode()))
    except NoForm:
        return None
    return number if re.fullmatch("[0-9]+", word) and number <= most else None


def of_lines(lines: Iterable[str]) -> bytes:
    return "".join(f"{it}\n" for it in lines).encode()


def summary(seed: int, count: int, name: str) -> bytes:
    found = list(replies([name], generated(seed, count)))
    told = {"commands": len(found), "ok": sum(it.startswith("ok") for it in found)}
    told |= {"errors": len(found) - told["ok"], "bytes": len(of_lines(found))}
    return of_lines([f"{word} {number}" for word, number in told.items()])


def restore(name: str, stream: bytes) -> bytes:
    held = image(name)
    reply, store = restored(stream, held)
    if store is not None:
        keep(name, Unit(len(held) // BLOCK, store), None)
    return of_lines([reply])


def whole_input(source: BinaryIO) -> bytes:
    read = source.read(MOST_INPUT + 1)
    if len(read) > MOST_INPUT:
        sys.exit(TOO_LONG)
    return read


def lines_of(source: BinaryIO) -> Iterator[bytes]:
    """The lines of an input as they come, but for one that does not end within the longest input."""
    left = MOST_INPUT + 1
    while line := source.readline(left):
        left -= len(line)
        if left == 0:
            sys.exit(TOO_LONG)
        yield line.removesuffix(b"\n")


def output(words: list[str], source: BinaryIO) -> Optional[Iterable[bytes]]:
    """What is written, piece by piece, where the words name a mode; its input is taken from the source."""
    mode, names = (words[0], words[1:]) if words else ("", [])
    if mode == "run" and len(names) <= 8 and len(set(names)) == len(names):
        return (of_lines([reply]) for reply in replies(names, lines_of(source)))
    if mode == "gen" and len(names) == 3:
        seed, count = decimal(names[0], 2**32 - 1), decimal(names[1], MOST_NAMES)
        return None if seed is None or count is None else [summary(seed, count, names[2])]
    reading = {"backup": lambda: backed(image(names[0])), "check": lambda: of_lines([checked(names[0])])}
    reading["restore"] = lambda: restore(names[0], whole_input(source))
    whole = {"show": lambda: shown_answer(whole_input(source)), "pack": lambda: packed_answer(whole_input(source))}
    table = whole if not names else reading if len(names) == 1 else {}
    return [table[mode]()] if mode in table else None


def checked(name: str) -> str:
    held = image(name)
    return "error 20 unit" if held is None else report(held)


def main(words: list[str]) -> int:
    written = output(words, sys.stdin.buffer)
    if written is None:
        print("newton: usage", file=sys.stderr)
        return USAGE
    for piece in written:
        sys.stdout.buffer.write(piece)
        sys.stdout.buffer.flush()
    return 0


if __name__ == "__main__":
    sys.exit(main(sys.argv[1:]))
