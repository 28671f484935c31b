"""Gives the program what a stranger might: damaged images, bent streams and literals, scripts of any bytes.

usage: python3 reference/hostile.py PROGRAM PART [FIRST [COUNT]]

FIRST is the first seed, 0 if left out, and COUNT how many cases there are. PART is one of these:

images   images that the program wrote or that are made at random, four in a run, with damage above which all checks are
         right, or with plain damage: the answer of `mount`, all of the store that is found, and what becomes of it
checks   such images, one in a run: what `check` says of each, and that it stays
texts    streams and literals bent at one to three places, 2,000 in a run, as lines `nsof HEX` and `lit LIT`
inputs   the same as the whole input of `show` and `pack`, one in a run
scripts  scripts of bytes, and scripts with bent lines, over files
depths   the deepest nests: the stack that each reader and writer needs for them
larges   the largest inputs and images: time and memory
names    COUNT symbols whose hashes collide, COUNT other ones, and the time for both

The first five compare each reply, and each store that is left, with the reference. Each run has at most 60 seconds of a
processor and 1 GiB of memory, and the most that one took is printed at the end. It ends with 1 at the first difference.
It needs a C compiler, cc, for the library that tells the memory (torn.c).
"""

import os
import resource
import subprocess
import sys
import tempfile
from collections import Counter
from pathlib import Path
from random import Random
from typing import Callable, NamedTuple, Optional

from check import report
from commands import answer, asked, run
from damage import TELLING_BYTES, TELLING_TEXT, bent, hostile_image, struck_anywhere
from extremes import CASES, DEPTHS, inputs_of_names, other_names
from images import BLOCK, NoStore, is_same_store, payloads, store_of_image
from layouts import random_image
from literals import NoLiteral, read_literal
from newton import packed_answer, shown_answer
from preload import built_library
from replies import of_name
from scripts import COMMANDS, written
from stores import Store
from streams import encode
from values import Values
from world import Unit, World

MOST_SECONDS = 60
MOST_MEMORY = 1 << 30
TOGETHER = 2000
BLOCKS = (13, 13, 14, 20, 40)
WORDS = [it.encode() for it in COMMANDS] + b"quit 0 1 S N k n.x nil".split()
WORDS += b"{} {k:1} [1] 'a \"b\" % * -1 020A".split()


class Differs(Exception):
    """What the program answers or leaves is not what is wanted."""


class Ran(NamedTuple):
    status: int
    output: bytes
    seconds: float
    memory: int


class Bench:
    """Runs the program, bounded, and keeps the most that a run took."""

    def __init__(self, program: Path, folder: Path):
        self.program, self.folder = program, folder
        self.library = built_library("torn", folder)
        self.counts: Counter = Counter()
        self.most_seconds, self.most_memory = 0.0, 0
        # A program that is built with checks of each access asks for more than it takes.
        self.bound = MOST_MEMORY
        if self.ran(["run"], b"").status != 0:
            self.bound = resource.RLIM_INFINITY
            print("the program does not begin within the bound of memory: it has none")

    def files(self, images: list[bytes]) -> list[Path]:
        files = [self.folder / f"unit{at}" for at in range(len(images))]
        for file, image in zip(files, images):
            file.write_bytes(image)
        return files

    def ran(self, words: list, given: bytes, stack: int = resource.RLIM_INFINITY) -> Ran:
        """A run, whatever its end."""

        def bounded() -> None:
            resource.setrlimit(resource.RLIMIT_CPU, (MOST_SECONDS, MOST_SECONDS))
            resource.setrlimit(resource.RLIMIT_AS, (self.bound, self.bound))
            if stack != resource.RLIM_INFINITY:
                resource.setrlimit(resource.RLIMIT_STACK, (stack, stack))

        told = self.folder / "told"
        told.unlink(missing_ok=True)
        before = resource.getrusage(resource.RUSAGE_CHILDREN)
        ended = subprocess.run(
            [self.program, *words],
            input=given,
            capture_output=True,
            preexec_fn=bounded,
            env={**os.environ, "LD_PRELOAD": str(self.library), "TORN_TOLD": str(told)},
        )
        after = resource.getrusage(resource.RUSAGE_CHILDREN)
        seconds = after.ru_utime + after.ru_stime - before.ru_utime - before.ru_stime
        memory = int(told.read_text().split()[1]) if told.exists() else 0
        self.counts["runs"] += 1
        return Ran(ended.returncode, ended.stdout, seconds, memory)

    def output(self, words: list, given: bytes) -> bytes:
        """The output of a run that is to end well."""
        ended = self.ran(words, given)
        self.most_seconds = max(self.most_seconds, ended.seconds)
        self.most_memory = max(self.most_memory, ended.memory)
        if ended.status != 0:
            raise Differs(f"the program ended with {ended.status} on {given[:1000]!r}")
        return ended.output

    def answers(self, script: bytes, wanted: list[str], files: list[Path]) -> None:
        """Plays a script, whose replies are to be these."""
        found = self.output(["run", *files], script).decode().splitlines()
        self.counts["answers"] += len(wanted)
        self.counts["ok"] += sum(it.startswith("ok") for it in wanted)
        if found == wanted:
            return
        both = enumerate(zip(found, wanted))
        at = next((at for at, (one, other) in both if one != other), min(len(found), len(wanted)))
        raise Differs(f"{asked(script)[at : at + 1]}\n  program:   {found[at : at + 1]}\n  reference: {wanted[at : at + 1]}")

    def leaves(self, units: list[Unit], files: list[Path]) -> None:
        """The stores that are left are to be those of the units."""
        for unit, file in zip(units, files):
            store = store_of_image(file.read_bytes())
            if (store is None) != (unit.store is None) or store and not is_same_store(store, unit.store):
                raise Differs(f"another store is left on {file.name}: {store}")


# Images.


def shown(number: int, store: Optional[Store]) -> list[str]:
    """Lines that mount a unit and show all of its store."""
    names = [of_name(it.name) for it in store.soups] if store else ["S"]
    entries = [f"{of_name(soup.name)} {it.uid}" for soup in store.soups for it in soup.entries] if store else []
    lines = [f"mount {number}", "stores", f"soups {number}"]
    lines += [f"{word} {number} {name}" for name in names for word in ("indexes", "tags")]
    return lines + [f"getx {number} {it}" for it in entries]


def reading(number: int, store: Optional[Store]) -> list[str]:
    """The same, then changes, and all of it once more."""
    names = [of_name(it.name) for it in store.soups] if store else ["S"]
    changes = [f'add {number} {name} {{k: "new"}}' for name in names] + [f"soup {number} another"]
    changes += [f"unmount {number}", f"format {number} C 3"]
    return [*shown(number, store), *changes, *shown(number, store), f"unmount {number}"]


def records_of_image(image: bytes) -> list[bytes]:
    try:
        return [b"\x00" + len(it).to_bytes(4, "big") + it for it in payloads(image)]
    except NoStore:
        return []


def written_images(bench: Bench, random: Random, units: list[Unit]) -> list[bytes]:
    """What the program leaves on the units after a random script; the units have these stores then."""
    script, wanted = written(random, World(units), len(units), random.choice((40, 100)))
    files = bench.files([bytes(BLOCK * it.blocks) for it in units])
    bench.answers(b"\n".join(script) + b"\n", wanted, files)
    return [it.read_bytes() for it in files]


def damaged_images(random: Random, units: list[Unit], images: list[bytes]) -> list[bytes]:
    made = []
    for unit, image in zip(units, images):
        others = records_of_image(random.choice(images))
        records = records_of_image(image)
        found = None
        if unit.store and random.random() < 0.7:
            found = hostile_image(random, unit.store, unit.blocks, records, others)
        elif unit.store and random.random() < 0.3:
            found = random_image(random, unit.store, unit.blocks)
        made.append(found or struck_anywhere(random, image))
    return made


def compare_images(bench: Bench, seed: int) -> None:
    random = Random(seed)
    units = [Unit(random.choice(BLOCKS)) for _ in range(4)]
    images = damaged_images(random, units, written_images(bench, random, units))
    units = [Unit(it.blocks, store_of_image(image)) for it, image in zip(units, images)]
    bench.counts["images"] += len(units)
    bench.counts["readable images"] += sum(it.store is not None for it in units)
    script = [line.encode() for number, it in enumerate(units) for line in reading(number, it.store)]
    world = World(units)
    wanted = [answer(world, it) for it in script]
    files = bench.files(images)
    bench.answers(b"\n".join(script) + b"\n", wanted, files)
    bench.leaves(units, files)


def compare_checks(bench: Bench, seed: int) -> None:
    random = Random(seed)
    units = [Unit(random.choice(BLOCKS)) for _ in range(4)]
    for image in damaged_images(random, units, written_images(bench, random, units)):
        wanted = report(image)
        [file] = bench.files([image])
        found = bench.output(["check", file], b"").decode()
        bench.counts["images"] += 1
        bench.counts[" ".join(wanted.split()[1:3] if "damaged" in wanted else ["clean"])] += 1
        if found != f"{wanted}\n":
            raise Differs(f"\n  program:   {found}  reference: {wanted}")
        if file.read_bytes() != image:
            raise Differs("an image that is checked is changed")


# Streams and literals.


def literal_text(random: Random, values: Values) -> bytes:
    text = values.any_value()
    while random.random() < 0.3:
        values.labels = 0
        text = random.choice((f"[{text}, {values.value()}]", f"{{a: {text}, b: {values.value()}}}"))
    return text.encode()


def stream_bytes(random: Random, values: Values) -> bytes:
    try:
        return encode(read_literal(literal_text(random, values)))
    except NoLiteral:
        return bytes.fromhex(values.stream()) if random.random() < 0.5 else encode(2)


def bent_stream(random: Random, values: Values) -> bytes:
    return bent(random, stream_bytes(random, values), TELLING_BYTES)


def bent_literal(random: Random, values: Values) -> bytes:
    return bent(random, literal_text(random, values), TELLING_TEXT)


def text_line(random: Random, values: Values) -> bytes:
    if random.random() < 0.5:
        return b"lit " + bent_literal(random, values).replace(b"\n", b" ")
    return b"nsof " + bent_stream(random, values).hex().encode()


def compare_texts(bench: Bench, seed: int) -> None:
    random = Random(seed)
    values, world = Values(random), World([])
    lines = [text_line(random, values) for _ in range(TOGETHER)]
    replies = [answer(world, it) for it in lines]
    bench.answers(b"\n".join(lines) + b"\n", [it for it in replies if it is not None], [])


def compare_inputs(bench: Bench, seed: int) -> None:
    random = Random(seed)
    values = Values(random)
    mode, given, wanted = random.choice((("show", bent_stream, shown_answer), ("pack", bent_literal, packed_answer)))
    text = given(random, values)
    found = bench.output([mode], text)
    bench.counts["answers"] += 1
    bench.counts["ok"] += not found.startswith(b"error")
    if found != wanted(text):
        raise Differs(f"{mode} {text!r}\n  program:   {found!r}\n  reference: {wanted(text)!r}")


# Scripts.


def bent_lines(random: Random, script: list[bytes]) -> list[bytes]:
    lines = [bent(random, it, TELLING_TEXT) if random.random() < 0.25 else it for it in script]
    if random.random() < 0.3:
        random.shuffle(lines)
    return lines


def any_bytes(random: Random) -> bytes:
    """Words, blanks, line ends and bytes in any order."""
    parts = []
    for _ in range(random.choice((50, 300, 1500))):
        parts.append(random.choice(WORDS) if random.random() < 0.7 else random.randbytes(random.randint(1, 4)))
        parts.append(random.choice((b" ", b" ", b" ", b"\n", b"\r\n", b"\t", b"")))
    return b"".join(parts)


def compare_script(bench: Bench, seed: int) -> None:
    random = Random(seed)
    blocks = [random.choice(BLOCKS) for _ in range(random.choice((1, 1, 2, 3)))]
    script, _ = written(random, World([Unit(it) for it in blocks]), len(blocks), random.choice((30, 120)))
    if random.random() < 0.5:
        lines = bent_lines(random, script)
    else:
        lines = [*script[: random.choice((0, 6, len(script)))], any_bytes(random)]
    given = b"\n".join(lines) + random.choice((b"", b"\n"))
    units = [Unit(it) for it in blocks]
    wanted = list(run(World(units), given.split(b"\n")))
    files = bench.files([bytes(BLOCK * it) for it in blocks])
    bench.answers(given, wanted, files)
    bench.leaves(units, files)


# Depths, sizes and names.


def least_stack(bench: Bench, words: list, given: bytes) -> int:
    """The least stack, in KiB, in steps of 4, with which a run ends well."""
    low, high = 0, 8192
    while high - low > 4:
        middle = (low + high) // 8 * 4
        low, high = (low, middle) if bench.ran(words, given, 1024 * middle).status == 0 else (middle, high)
    return high


def measure_depths(bench: Bench) -> None:
    print(f"least: {least_stack(bench, ['run'], b'lit 1' + bytes([10]))} KiB of stack for a line")
    for name, words, given, blocks in DEPTHS:
        files = bench.files([bytes(BLOCK * it) for it in blocks])
        whole = bench.ran([*words, *files], given)
        files = bench.files([bytes(BLOCK * it) for it in blocks])
        print(f"{name}: {least_stack(bench, [*words, *files], given)} KiB of stack, {len(whole.output)} bytes answered")


def measure_larges(bench: Bench) -> None:
    for name, make in CASES:
        words, given, images = make()
        size = len(given) + sum(map(len, images))
        ended = bench.ran([*words, *bench.files(images)], given)
        told = f"{ended.seconds:.2f} s, {ended.memory} kB, {ended.memory * 1024 / size:.1f} times its size"
        print(f"{name}: {size} bytes, status {ended.status}, {len(ended.output)} bytes answered, {told}", flush=True)


def measure_names(bench: Bench, count: int) -> None:
    for word, chosen in (("colliding", colliding_names(bench, count)), ("other", other_names(count))):
        for name, words, given, images in inputs_of_names(chosen):
            ended = bench.ran([*words, *bench.files(images)], given)
            told = f"status {ended.status}, {ended.seconds:.2f} s, {ended.memory} kB"
            print(f"{name} {word} names: {told}", flush=True)


def colliding_names(bench: Bench, count: int) -> list[bytes]:
    maker = bench.folder / "colliding"
    subprocess.run(["cc", "-O2", "-o", maker, Path(__file__).with_name("colliding.c")], check=True)
    return subprocess.run([maker, str(count)], capture_output=True, check=True).stdout.splitlines()


PARTS: dict[str, Callable] = {
    "images": compare_images,
    "checks": compare_checks,
    "texts": compare_texts,
    "inputs": compare_inputs,
    "scripts": compare_script,
}


def compared(bench: Bench, part: str, first: int, count: int) -> int:
    for seed in range(first, first + count):
        try:
            PARTS[part](bench, seed)
        except Differs as fault:
            print(f"{part} {seed}: {fault}")
            return 1
    told = ", ".join(f"{number} {name}" for name, number in sorted(bench.counts.items()))
    print(f"{part} {first} to {first + count - 1}: no difference: {told}")
    print(f"  at most {bench.most_seconds:.2f} s of a processor and {bench.most_memory} kB in a run")
    return 0


def main(program: str, part: str, first: str = "0", count: str = "100") -> int:
    with tempfile.TemporaryDirectory() as folder:
        bench = Bench(Path(program).resolve(), Path(folder))
        if part in PARTS:
            return compared(bench, part, int(first), int(count))
        if part == "names":
            measure_names(bench, int(count))
        else:
            {"depths": measure_depths, "larges": measure_larges}[part](bench)
        return 0


if __name__ == "__main__":
    sys.exit(main(*sys.argv[1:]))
