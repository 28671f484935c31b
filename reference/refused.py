"""Refuses the program's memory, one allocation at a time, and looks at how it ends.

usage: python3 reference/refused.py PROGRAM [EACH]

Three scripts are played over two files of 13 blocks: one on a unit alone, one of all commands, and one that fills a
unit until its bank is switched. Then the card of the second is backed up, checked, and restored to a blank one. For
each number N from 1 on, up to the allocations of a run to which nothing is refused, a run is played in which the N-th
is refused, and one in which all from the N-th on are. With EACH every EACH-th number is tried. It ends with 1 at the
first run that is not so:

- it ends with the status of want of memory and its line on standard error, or, where the program can do without what
  was refused, as it would have ended with it;
- the replies before are whole, and the first of those of the run to which nothing is refused;
- each file is read as its unit's store after these commands or after one more; after the other modes, where memory
  was wanting, nothing is written and the file is as it was.

It needs a C compiler, cc, for the library that refuses (refused.c).
"""

import os
import subprocess
import sys
import tempfile
from collections import Counter
from pathlib import Path
from typing import Callable, NamedTuple, Optional

from commands import answer
from images import BLOCK, is_same_store, store_of_image
from preload import built_library
from stores import Store
from world import Unit, World

BLOCKS = 13
BLANK = [bytes(BLOCK * BLOCKS)] * 2
MEMORY = 3

ALONE = """
mount 0
format 0 Internal 7
mount 0
mount 0
format 0 Again 8
unmount 0
format 0 Again 8
mount 2
"""

ALL = """
nsof 0206010701610004
lit {a: [1, 'b, "c", $d], e: <f: 00FF>}
time 5
format 0 Internal 7
format 1 "Other Card" 9
mount 0
mount 1
stores
default 1
default 0
soup 0 S
soup 1 S
soups 0
index 0 S k:string:ascend n:int:descend
index 1 S k:string:ascend n:int:descend
index 0 S c:char:ascend
unindex 0 S c
indexes 0 S
tags 0 S labels work home
tags 0 S
add 0 S {k: "b", n: 2, labels: 'work, v: <<w:*1200>>}
addx 0 S 020602070 
addx 0 S 02060107016B0804006100000
addx 0 S 02060107016B080400610000
addu S {k: "c", deep: {x: {y: 1}}, t: "Stra\\u00DFe"}
get 0 S 0
getx 0 S 1
set 0 S 2 deep.x.y "z"
change 0 S 1 {k: "aa", labels: ['home, 'work]}
copy 0 S 0 1 S
move 0 S 2 1 S
remove 1 S 0
vread 0 S 0 v 498 4
vwrite 0 S 0 v 499 4142
alias 0 S 0
resolve [alias: 7, 0, 0]
query 0 S {indexPath: ['k, 'n], tagSpec: {any: ['work, 'home]}}
query * S {indexPath: ['k, 'n], beginKey: ["a"]}
query 0 S {words: "stra", entireWords: true}
query 0 S {text: ["b"]}
entry 1
next 1
prev 1
end 1
reset 1
moveby 1 2
goto 0 0 0
gotokey 1 ["b", nil]
count 1
which 1
clone 1
close 4
set 0 S 0 k "x"
entry 0
unmount 1
entry 1
mount 1
drop 1 S
soup 0 T
drop 0 T
unmount 0
quit
"""

FULL = (
    ["format 0 Full 1", "mount 0", "soup 0 S"]
    + [f'add 0 S {{n: {at}, t: "{"x" * 300}"}}' for at in range(12)]
    + [f'change 0 S {at % 12} {{n: {at}, t: "{"y" * 310}"}}' for at in range(24)]
)

SCRIPTS = {
    "a unit alone": ALONE.split("\n")[1:-1],
    "all commands": ALL.split("\n")[1:-1],
    "a full bank": FULL,
}


class Ended(NamedTuple):
    status: int
    output: bytes
    told: bytes
    calls: int


class Wrong(Exception):
    """A run did not end as it should."""


class Bench:
    def __init__(self, program: Path, folder: Path):
        self.program, self.folder, self.library = program, folder, built_library("refused", folder)
        self.files = [folder / "unit0", folder / "unit1"]

    def ran(self, mode: str, given: bytes, images: list[bytes], at: int, goes_on: bool) -> Ended:
        """A run over files of these images."""
        for file, image in zip(self.files, images):
            file.write_bytes(image)
        told = self.folder / "told"
        told.unlink(missing_ok=True)
        refused = {"REFUSED_AT": str(at), "REFUSED_ON": "1" if goes_on else "0", "REFUSED_TOLD": str(told)}
        ended = subprocess.run(
            [self.program, mode, *self.files[: len(images)]],
            input=given,
            capture_output=True,
            env={**os.environ, **refused, "LD_PRELOAD": str(self.library)},
        )
        calls = int(told.read_text()) if told.exists() else 0
        return Ended(ended.returncode, ended.stdout, ended.stderr, calls)

    def stores(self) -> list[Optional[Store]]:
        return [store_of_image(file.read_bytes()) for file in self.files]


def first_world() -> World:
    return World([Unit(BLOCKS), Unit(BLOCKS)])


def replies_of(script: list[str]) -> list[str]:
    world = first_world()
    replies = [answer(world, it.encode()) for it in script]
    return [it for it in replies if it is not None]


def stores_of(script: list[str], most: int) -> list[Optional[Store]]:
    """The stores of both units after so many commands with a reply."""
    world = first_world()
    for line in script:
        if most == 0:
            break
        most -= answer(world, line.encode()) is not None
    return [it.store for it in world.units[:2]]


def is_one_of(found: Optional[Store], wanted: list[Optional[Store]]) -> bool:
    return any(
        found is None and it is None or found is not None and it is not None and is_same_store(found, it)
        for it in wanted
    )


class Script(NamedTuple):
    """A script, and its output."""

    lines: list[str]
    output: bytes


def played(lines: list[str]) -> Script:
    return Script(lines, "".join(it + "\n" for it in replies_of(lines)).encode())


def look(bench: Bench, script: Script, ended: Ended) -> str:
    """Looks at the end of a run, and says what it was."""
    if ended.status == 0 and not ended.told and ended.output == script.output:
        return "did without"
    if ended.status != MEMORY or ended.told.count(b"\n") != 1 or not ended.told.endswith(b"\n"):
        raise Wrong(f"status {ended.status}, {ended.told!r}, {ended.output[-200:]!r}")
    if not script.output.startswith(ended.output) or ended.output[-1:] not in (b"", b"\n"):
        raise Wrong(f"other replies: {ended.output[-200:]!r}")
    replies = ended.output.count(b"\n")
    before, after = stores_of(script.lines, replies), stores_of(script.lines, replies + 1)
    if not all(is_one_of(found, both) for found, *both in zip(bench.stores(), before, after)):
        raise Wrong(f"another store after {replies} replies")
    return "ended as want of memory"


def tried(name: str, calls: int, each: int, run: Callable[[int, bool], str]) -> None:
    """Refuses each allocation, and all from each on; a run says what its end was."""
    for goes_on, word in ((False, "one"), (True, "all from one on")):
        counts: Counter = Counter()
        for at in range(1, calls + 1, each):
            try:
                counts[run(at, goes_on)] += 1
            except Wrong as fault:
                raise Wrong(f"{name}, {word}, allocation {at}: {fault}") from fault
        told = ", ".join(f"{count} {what}" for what, count in sorted(counts.items()))
        print(f"  {word} refused: {told}", flush=True)


def refuse_each(bench: Bench, name: str, lines: list[str], each: int) -> None:
    script, text = played(lines), "\n".join(lines).encode() + b"\n"
    whole = bench.ran("run", text, BLANK, 0, False)
    if whole.status != 0 or whole.output != script.output:
        raise Wrong(f"{name}: status {whole.status}, other replies")
    print(f"{name}: {whole.calls} allocations, {len(replies_of(lines))} replies", flush=True)
    tried(name, whole.calls, each, lambda *it: look(bench, script, bench.ran("run", text, BLANK, *it)))


def refuse_mode(bench: Bench, mode: str, given: bytes, image: bytes, each: int) -> bytes:
    """The output of a mode over a file of this image, to which nothing is refused; then each allocation is."""
    whole = bench.ran(mode, given, [image], 0, False)
    left = bench.files[0].read_bytes()
    print(f"{mode}: {whole.calls} allocations, status {whole.status}", flush=True)

    def run(at: int, goes_on: bool) -> str:
        ended = bench.ran(mode, given, [image], at, goes_on)
        found = bench.files[0].read_bytes()
        if ended._replace(calls=0) == whole._replace(calls=0) and found == left:
            return "did without"
        if (ended.status, ended.output) != (MEMORY, b"") or found != image:
            raise Wrong(f"status {ended.status}, {ended.output[:200]!r}, the file is {'kept' * (found == image)}")
        return "ended as want of memory"

    tried(mode, whole.calls, each, run)
    return whole.output


def refuse_modes(bench: Bench, each: int) -> None:
    bench.ran("run", "\n".join(SCRIPTS["all commands"]).encode(), BLANK, 0, False)
    card = bench.files[0].read_bytes()
    kept = refuse_mode(bench, "backup", b"", card, each)
    refuse_mode(bench, "check", b"", card, each)
    refuse_mode(bench, "restore", kept, BLANK[0], each)


def main(program: str, each: str = "1") -> int:
    with tempfile.TemporaryDirectory() as folder:
        bench = Bench(Path(program).resolve(), Path(folder))
        try:
            for name, script in SCRIPTS.items():
                refuse_each(bench, name, script, int(each))
            refuse_modes(bench, int(each))
        except Wrong as fault:
            print(fault)
            return 1
    return 0


if __name__ == "__main__":
    sys.exit(main(*sys.argv[1:]))
