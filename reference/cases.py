"""Runs of the program that the quick check plays, each with what it is given and what it is to write.

What is wanted of a run is what this reference writes of it, or what a document shows.
"""

import os
import pickle
import sys
import tempfile
from io import BytesIO
from itertools import count
from pathlib import Path
from random import Random
from typing import Iterator, NamedTuple

from backups import backup
from check import report
from commands import answer
from compare import BLOCKS, random_units
from edges import EDGES
from examples import REFERENCE, differing_steps, is_of_the_program, of_commands, of_formats, shells
from hostile import bent_literal, bent_stream, damaged_images, reading, shown, text_line
from images import BLOCK, store_of_image
from newton import USAGE, image_of, of_lines, output
from restores import bent_streams, devices
from scripts import written
from stores import Store
from streams import encode
from values import Values
from world import UNITS, Unit, World

# Scripts at the limits that take a program with checks of each access too long, or want a card of megabytes.
LONG = ("nodes", "larges", "blocks", "lines")
# How many random scripts a run has, since it takes rt try more than half a second to begin one, and their lines.
SCRIPTS, LINES = 10, 60
TEXTS, BACKUPS = 300, 2
# How often each of some images is damaged anew, so that each layer is damaged in one of them.
ROUNDS = 24


class DocumentDiffers(Exception):
    """The reference does not show what a document says: which line."""


class Case(NamedTuple):
    """A run: its words, its input, the files that words of it name, what it is to write, and how it is to end."""

    name: str
    words: list[str]
    given: bytes
    files: dict[str, bytes]
    wanted: bytes
    status: int = 0


def case(name: str, words: list[str], given: bytes, files: dict[str, bytes]) -> Case:
    """A run, of which that is wanted which the reference writes."""
    with tempfile.TemporaryDirectory() as folder:
        for file, image in files.items():
            Path(folder, file).write_bytes(image)
        written_to = [os.path.join(folder, it) if it in files else it for it in words]
        pieces = output(written_to, BytesIO(given))
        wanted = None if pieces is None else b"".join(pieces)
    return Case(name, words, given, files, wanted or b"", USAGE if wanted is None else 0)


def script(name: str, lines: list[bytes], images: list[bytes]) -> Case:
    files = {f"unit{at}": image for at, image in enumerate(images)}
    return case(name, ["run", *files], b"\n".join(lines) + b"\n", files)


# The documents.


def sessions() -> Iterator[Case]:
    """The lines and replies of docs/COMMANDS.md, and the streams and literals of docs/FORMATS.md."""
    single, session = of_commands()
    for name, examples, units in (("lines", single, 0), ("session", session, 2), ("formats", of_formats(), 0)):
        files = {f"unit{at}": bytes(BLOCK * 13) for at in range(units)}
        given, wanted = (of_lines([pair[at] for pair in examples]) for at in range(2))
        yield Case(f"document-{name}", ["run", *files], given, files, wanted)


def typed() -> Iterator[Case]:
    """What is typed at a shell in the documents: each script that is run over no card of an earlier run."""
    for name, steps in zip(map("typed-{:02}".format, count(1)), shells()):
        if is_of_the_program(steps):
            continue
        with tempfile.TemporaryDirectory() as folder:
            for wrong in differing_steps(steps, f"'{sys.executable}' '{REFERENCE / 'recorded.py'}' '{folder}'"):
                raise DocumentDiffers(f"the reference differs from a document:\n{wrong}")
            runs = [pickle.loads(it.read_bytes()) for it in sorted(Path(folder).iterdir())]
            scripts = (it for it in runs if it.words[0] == "run" and not any(map(any, it.files.values())))
            for at, run in enumerate(scripts):
                yield run._replace(name=f"{name}-{at}")


# Scripts.


def limits() -> Iterator[Case]:
    for lines, blocks in EDGES:
        if lines.__name__ not in LONG:
            given = [it.encode() for it in lines()]
            yield script(f"limit-{lines.__name__}", given, [bytes(BLOCK * it) for it in blocks])


def kept(units: list[Unit]) -> list[str]:
    """Lines that show each store once more after it was unmounted."""
    lines = [f"unmount {number}" for number in range(len(units))]
    for number, unit in enumerate(units):
        lines += [*shown(number, unit.store), f"unmount {number}"]
    return lines


def random_scripts(seed: int) -> Case:
    """A run of some random scripts over the same units, blank at first, each with what it leaves."""
    random = Random(seed)
    units = random_units(random)
    images = [bytes(BLOCK * it.blocks) for it in units]
    world, lines = World(units), []
    for _ in range(SCRIPTS):
        lines += written(random, world, len(units), LINES)[0]
        ends = [it.encode() for it in kept(units)]
        lines += ends
        for line in ends:
            answer(world, line)
    return script(f"script-{seed:04}", lines, images)


# The other modes.


def texts(seed: int) -> Iterator[Case]:
    """Streams and literals, most of them bent, as lines and as the input of `show` and `pack`."""
    random = Random(seed)
    values = Values(random)
    yield script("text-lines", [text_line(random, values) for _ in range(TEXTS)], [])
    yield case("text-show", ["show"], bent_stream(random, values), {})
    yield case("text-pack", ["pack"], bent_literal(random, values), {})


def unit_of_script(random: Random) -> Unit:
    """A unit with the store that a random script leaves."""
    while True:
        unit = Unit(random.choice(BLOCKS[1:]))
        written(random, World([unit]), 1, random.choice((40, 90)))
        if unit.store:
            return unit


def by_report(images: list[bytes]) -> dict[str, bytes]:
    """The first of these images of which `check` tells each layer as damaged, or that it is clean."""
    found: dict[str, bytes] = {}
    for image in images:
        _, word, layer, *_ = report(image).split()
        found.setdefault(layer if word == "damaged" else word, image)
    return found


def images(seed: int) -> Iterator[Case]:
    """Images that the reference wrote, and such with damage: some of these in one run, and each in the other modes."""
    random = Random(seed)
    units = [unit_of_script(random) for _ in range(UNITS)]
    wholes = [image_of(it.store, it.blocks) for it in units]
    damaged = [it for _ in range(ROUNDS) for it in damaged_images(random, units, wholes)]
    for layer, image in by_report([*wholes, *damaged, b"\xff" * (BLOCK * 13)]).items():
        yield case(f"image-check-{layer}", ["check", "card"], b"", {"card": image})
    lines = [line.encode() for number, it in enumerate(damaged[:UNITS]) for line in reading(number, store_of_image(it))]
    yield script("image-run", lines, damaged[:UNITS])
    for number, (unit, whole, other) in enumerate(zip(units[:BACKUPS], wholes, damaged)):
        yield from backups(random, f"image-{number}", unit.store, whole, other)


def backups(random: Random, name: str, store: Store, whole: bytes, damaged: bytes) -> Iterator[Case]:
    """The backup of one of two images, and a restore of it, whole to any device, or bent to a blank one."""
    stream, is_bent = encode(backup(store)), random.random() < 0.5
    bent = random.choice(bent_streams(random, store, stream, 1))
    device = random.choice([it for it in devices(random, store, whole) if it is not None])
    yield case(f"{name}-backup", ["backup", "card"], b"", {"card": random.choice((whole, damaged))})
    given, image = (bent, bytes(len(whole))) if is_bent else (stream, device)
    yield case(f"{name}-restore", ["restore", "card"], given, {"card": image})


def all_cases(seed: int, runs: int) -> Iterator[Case]:
    """All cases, with so many runs of random scripts, from a seed on."""
    yield from sessions()
    yield from typed()
    yield from limits()
    yield from texts(seed)
    yield case("usage", ["run", "card", "card"], b"", {"card": bytes(BLOCK * 13)})
    yield case("generated", ["gen", "1", "40", "card"], b"", {"card": bytes(BLOCK * 40)})
    yield from images(seed)
    yield from map(random_scripts, range(seed, seed + runs))
