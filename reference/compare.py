"""Plays scripts to the program and to this reference, and compares the replies and the stores that are left.

usage: python3 reference/compare.py [PROGRAM [FIRST [COUNT [LINES]]]]

PROGRAM is the built program, crates/newton/out/newton if left out. First come the scripts at the limits, and then random
ones, each with an image made at random: FIRST is their first seed, 0 if left out, and COUNT their number, 100 if left
out. The scripts run over one to five new files, and half of them go on with a second run. What an image is read as is
asked with a script of its own. With LINES there are random scripts alone, each run of so many lines. It stops at the
first difference, with status 1.
"""

import subprocess
import sys
import tempfile
from contextlib import contextmanager
from pathlib import Path
from random import Random
from typing import Iterator, Optional

from commands import answer, asked
from edges import EDGES
from images import is_same_store, store_of_image
from layouts import random_image
from replies import of_name
from scripts import written
from stores import Store
from world import Unit, World

BLOCKS = (12, 13, 13, 14, 16, 20, 40)


def replies_of(program: Path, script: list[bytes], files: list[Path]) -> list[str]:
    ran = subprocess.run([program, "run", *files], input=b"\n".join(script) + b"\n", capture_output=True, check=True)
    return ran.stdout.decode().splitlines()


def is_same_run(program: Path, script: list[bytes], wanted: list[str], units: list[Unit], files: list[Path]) -> bool:
    """Whether the program answers as is wanted, and leaves the stores that the units have."""
    found = replies_of(program, script, files)
    if found != wanted:
        lines = asked(b"\n".join(script))
        at = next(
            (at for at, (one, other) in enumerate(zip(found, wanted)) if one != other), min(len(found), len(wanted))
        )
        print(f"  {lines[at].decode()}\n  program:   {found[at:][:1]}\n  reference: {wanted[at:][:1]}")
        return False
    for unit, file in zip(units, files):
        store = store_of_image(file.read_bytes())
        if (store is None) != (unit.store is None) or store and not is_same_store(store, unit.store):
            print(f"  another store is left on {file.name}")
            return False
    return True


@contextmanager
def blank_files(units: list[Unit]) -> Iterator[list[Path]]:
    with tempfile.TemporaryDirectory() as folder:
        files = [Path(folder, f"unit{at}") for at in range(len(units))]
        for file, unit in zip(files, units):
            file.write_bytes(bytes(4096 * unit.blocks))
        yield files


def is_same_at_limits(program: Path, lines: list[str], blocks: tuple) -> bool:
    units = [Unit(it) for it in blocks]
    world, script = World(units), [it.encode() for it in lines]
    replies = [answer(world, it) for it in script]
    with blank_files(units) as files:
        return is_same_run(program, script, [it for it in replies if it is not None], units, files)


def random_units(random: Random) -> list[Unit]:
    return [Unit(random.choice(BLOCKS)) for _ in range(random.choice((1, 2, 3, 3, 5)))]


def is_same_at_random(program: Path, seed: int, lines: tuple = (60, 150, 400)) -> bool:
    random = Random(seed)
    units = random_units(random)
    with blank_files(units) as files:
        for _ in range(random.choice((1, 2))):
            script, wanted = written(random, World(units), len(units), random.choice(lines))
            if not is_same_run(program, script, wanted, units, files):
                return False
    return True


def reading(store: Optional[Store]) -> list[str]:
    """A script that shows all of a store on unit 0, changes it, and shows it once more."""
    names = [of_name(it.name) for it in store.soups] if store else ["S"]
    entries = [f"{of_name(soup.name)} {entry.uid}" for soup in store.soups for entry in soup.entries] if store else []
    shown = ["stores", "soups 0", *[f"{word} 0 {name}" for name in names for word in ("indexes", "tags")]]
    shown += [f"getx 0 {it}" for it in entries]
    changes = [f'add 0 {name} {{k: "new"}}' for name in names] + [
        "soup 0 another",
        "unmount 0",
        "format 0 C 3",
        "mount 0",
    ]
    return ["mount 0", *shown, *changes, *shown]


def is_same_image(program: Path, seed: int) -> bool:
    random = Random(seed)
    unit = Unit(random.choice(BLOCKS[1:]))
    written(random, World([unit]), 1, random.choice((12, 40, 90)))
    image = random_image(random, unit.store, unit.blocks) if unit.store else None
    if image is None:
        return True
    unit.store = store_of_image(image)
    script = [it.encode() for it in reading(unit.store)]
    with blank_files([unit]) as files:
        files[0].write_bytes(image)
        world = World([unit])
        return is_same_run(program, script, [answer(world, it) for it in script], [unit], files)


def main(program: str = "", first: str = "0", count: str = "100", lines: str = "") -> int:
    path = (Path(program) if program else Path(__file__).parent.parent / "crates/newton/out/newton").resolve()
    seeds = range(int(first), int(first) + int(count))
    if lines:
        differ = next((it for it in seeds if not is_same_at_random(path, it, (int(lines),))), None)
        print(f"{count} scripts from seed {first} on: " + ("no difference" if differ is None else f"seed {differ} differs"))
        return 0 if differ is None else 1
    for script, blocks in EDGES:
        if not is_same_at_limits(path, script(), blocks):
            print(f"{script.__name__}: the program and the reference differ")
            return 1
    for seed in seeds:
        if not is_same_at_random(path, seed) or not is_same_image(path, seed):
            print(f"seed {seed}: the program and the reference differ")
            return 1
    print(f"{len(EDGES)} scripts at the limits, and {count} from seed {first} on: no difference")
    return 0


if __name__ == "__main__":
    sys.exit(main(*sys.argv[1:]))
