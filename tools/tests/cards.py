"""Cards that the program makes for the tests of the tools, and runs of the program over them."""

import os
import re
import subprocess
import sys
from pathlib import Path
from random import Random

TOP = Path(__file__).resolve().parents[2]
TOOLS = TOP / "tools"
sys.path.insert(0, str(TOOLS))
PROGRAM = Path(os.environ.get("NEWTON", TOP / "crates/newton/out/newton")).resolve()
BLOCK = 4096
SOUP = re.compile(r'("(?:[^"\\]|\\.)*"|[^\s"]+) (\d+) (\d+)')
WORDS = "Bread Milk Salt Straße Ely Kent naïve 日本 Mill maker town labels of the old card".split()


def run(card: Path, script: str) -> list[str]:
    """The replies to a script over one card."""
    ran = subprocess.run([PROGRAM, "run", card], input=script.encode(), capture_output=True, check=True)
    return ran.stdout.decode().splitlines()


def check(card: Path) -> str:
    return subprocess.run([PROGRAM, "check", card], capture_output=True, check=True).stdout.decode().strip()


def blank(folder: Path, name: str, blocks: int) -> Path:
    card = folder / name
    card.write_bytes(bytes(BLOCK * blocks))
    return card


def tool(name: str, *words: object) -> subprocess.CompletedProcess:
    command = [sys.executable, TOOLS / name, *map(str, words)]
    return subprocess.run(command, capture_output=True)


def text(random: Random, most: int) -> str:
    return " ".join(random.choices(WORDS, k=random.randint(1, most)))


def large(random: Random) -> str:
    return random.randbytes(random.choice((0, 40, 700, 3000, 9000))).hex()


def lines_of_day(random: Random, count: int) -> list[str]:
    """Adds, changes and removals in two soups, some of entries with large binaries."""
    lines, known = [], {"Names": 0, "Photos": 0}
    gone: set[tuple] = set()
    for step in range(count):
        soup = random.choice(("Names", "Names", "Names", "Photos"))
        live = [uid for uid in range(known[soup]) if (soup, uid) not in gone]
        kind = random.choice(("add", "add", "set", "remove", "vwrite")) if live else "add"
        uid = random.choice(live) if live else 0
        if step % 10 == 0:
            lines.append(f"time {1000 + step}")
        if kind == "add":
            data = f", bits: <<raw:{large(random)}>>" if soup == "Photos" else ""
            lines.append(f'add 0 {soup} {{name: "{text(random, 3)}", n: {step}, note: "{text(random, 60)}"{data}}}')
            known[soup] += 1
        elif kind == "set":
            lines.append(f'set 0 {soup} {uid} note "{text(random, 30)}"')
        elif kind == "remove" and random.random() < 0.6:
            lines.append(f"remove 0 {soup} {uid}")
            gone.add((soup, uid))
        elif kind == "vwrite" and soup == "Photos":
            lines.append(f"vwrite 0 {soup} {uid} bits 0 {random.randbytes(20).hex()}")
    return lines


HEAD = ["format 0 Cupboard 9", "mount 0", "soup 0 Names", "soup 0 Photos", "index 0 Names name:string:ascend"]


def made_card(folder: Path, name: str, seed: int, blocks: int = 80, count: int = 300) -> Path:
    """A card with some days of use on it."""
    card = blank(folder, name, blocks)
    run(card, "\n".join([*HEAD, *lines_of_day(Random(seed), count), ""]))
    return card


def stored(card: Path) -> dict[tuple[str, str], str]:
    """The entries of a card by the program: minute and stream by soup and id."""
    replies = run(card, "mount 0\nsoups 0\n")
    if not replies[0].startswith("ok"):
        return {}
    soups = [name for name, _, _ in SOUP.findall(replies[1][3:])]
    found = {}
    for soup in soups:
        walked = run(card, f"mount 0\nquery 0 {soup} {{}}\ncount 0\nentry 0\n" + "next 0\n" * 400)[3:]
        uids = [it.split()[2] for it in walked if it.startswith("ok 0 ")]
        streams = run(card, "mount 0\n" + "".join(f"getx 0 {soup} {uid}\n" for uid in uids))[1:]
        found.update({(soup, uid): it[3:] for uid, it in zip(uids, streams)})
    return found
