"""Plays the examples of the documents, to this reference and, where one is given, to the program.

usage: python3 reference/examples.py [PROGRAM]

The examples: each line and reply of docs/COMMANDS.md, those from the heading "Units and stores" to "When a card fails"
as one session over two units of 13 blocks; the streams, literals and the fresh image of docs/FORMATS.md; and what is
typed at a shell in each part of README.md, docs/COMMANDS.md, docs/FORMATS.md and docs/EXAMPLES.md and in the examples
of docs/newton.1, where `newton` is reference/newton.py or the program. Each part begins in an empty folder. A part in
which a file can't be written (`ulimit`), or in which single bytes of an image are changed (`bs=1`), is played to the
program alone. It ends with 0 where all agree.
"""

import os
import re
import subprocess
import sys
import tempfile
from itertools import zip_longest
from pathlib import Path
from textwrap import indent
from typing import Callable, NamedTuple

from commands import answer
from images import store_of_image
from world import Unit, World

REFERENCE = Path(__file__).resolve().parent
TOP = REFERENCE.parent
DOCS = TOP / "docs"
BLOCKS = 13
MALFORMED, NO_LITERAL = "error 1 malformed", "error 3 literal"

Example = tuple[str, str]


def of_commands() -> tuple[list[Example], list[Example]]:
    """The lines and replies before the session, and those of the session. `quit` is left out, since it ends a script."""
    before, _, session = (DOCS / "COMMANDS.md").read_text().partition("\n## Units and stores\n")
    session = session.partition("\n## When a card fails\n")[0]

    def pairs(text: str) -> list[Example]:
        shown = re.findall(r"^    (\S.*)$", text, re.MULTILINE)
        return [pair for pair in zip(shown[::2], shown[1::2], strict=True) if pair[0] != "quit"]

    return pairs(before), pairs(session)


def of_formats() -> list[Example]:
    """The streams and literals of the lists and tables, each with its reply."""
    text = (DOCS / "FORMATS.md").read_text()
    examples = []
    for stream, said in re.findall(r"^- `(02[0-9A-F]*)`: ((?:.*\n)(?:  .*\n)*)", text, re.MULTILINE):
        last = said.rpartition(";")[2].strip().strip("`")
        reply = {"the same": f"ok {stream}", "malformed": MALFORMED}.get(last, f"ok {last}")
        examples.append((f"nsof {stream}", reply))
    for cells in re.findall(r"^\| (`.*`) \| (?:`(.*)`|no literal) \|$", text, re.MULTILINE):
        for literal in re.findall(r"`([^`]*)`", cells[0]):
            examples.append((f"lit {literal}", f"ok {cells[1]}" if cells[1] else NO_LITERAL))
    return examples


def fresh_image() -> bytes:
    """The image that docs/FORMATS.md spells of a fresh unit."""
    spelt = (DOCS / "FORMATS.md").read_text().partition("from byte 12,288 on:\n")[2].partition("\n## ")[0]
    rows = re.findall(r"^    ((?:[0-9A-F]{2,} ?)+)", spelt, re.MULTILINE)
    image = bytearray(b"\xff" * (BLOCKS * 4096))
    record = bytes.fromhex("".join(rows)) + bytes(484)
    image[12_288 : 12_288 + len(record)] = record
    for block in range(3):
        image[4096 * block] = 0
    return bytes(image)


def differing(examples: list[Example], replies: list[str]) -> list[str]:
    found = [f"{line}\n  wanted {want}\n  found  {reply}" for (line, want), reply in zip(examples, replies) if want != reply]
    return found + ([] if len(examples) == len(replies) else [f"{len(examples)} lines, {len(replies)} replies"])


def by_reference(units: int) -> Callable[[list[Example]], list[str]]:
    world = World([Unit(BLOCKS) for _ in range(units)])
    return lambda examples: [answer(world, line.encode()) for line, _ in examples]


def by_program(program: Path, units: int) -> Callable[[list[Example]], list[str]]:
    def replies(examples: list[Example]) -> list[str]:
        with tempfile.TemporaryDirectory() as folder:
            files = [Path(folder, f"unit{at}") for at in range(units)]
            for file in files:
                file.write_bytes(bytes(4096 * BLOCKS))
            script = "".join(f"{line}\n" for line, _ in examples).encode()
            ran = subprocess.run([program, "run", *files], input=script, capture_output=True, check=True)
            return ran.stdout.decode().splitlines()

    return replies


# What is typed at a shell.

PAGES = ("README.md", "docs/COMMANDS.md", "docs/FORMATS.md", "docs/EXAMPLES.md")
OF_THE_PROGRAM = re.compile(r"\bulimit\b|\bbs=1\b")


class Step(NamedTuple):
    """A command, and what is shown of it: its output, or where `newton run` asks for a script, its lines and replies."""

    command: str
    shown: list[str]

    def is_talk(self) -> bool:
        return "newton run" in self.command and not set(self.command) & set("<|")


def shells() -> list[list[Step]]:
    """The parts of each page in which something is typed, and the examples of the manual page."""
    parts = [part for page in PAGES for part in (TOP / page).read_text().split("\n## ")]
    parts.append(of_manual())
    return [steps for steps in map(steps_of, parts) if steps]


def of_manual() -> str:
    """The examples of the manual page, indented as in the other documents."""
    shown = (TOP / "docs/newton.1").read_text().partition(".SH EXAMPLES\n")[2].partition(".SH ")[0]
    parts = re.findall(r"\.RS\n(.*?)\.RE\n", shown.replace("\\e", "\\"), re.DOTALL)
    return indent("".join(parts), "    ")


def is_of_the_program(steps: list[Step]) -> bool:
    """Whether a part is played to the program alone: this reference writes each file, and lays stores out otherwise."""
    return any(OF_THE_PROGRAM.search(it.command) for it in steps)


def steps_of(text: str) -> list[Step]:
    """The commands of a part. Each begins with `$`, and goes on in lines that begin with `>`."""
    steps: list[Step] = []
    for line in re.findall(r"^    (.*)$", text, re.MULTILINE):
        if line.startswith("$ "):
            steps.append(Step(line[2:], []))
        elif steps and not steps[-1].shown and line.startswith("> "):
            steps[-1] = Step(f"{steps[-1].command}\n{line[2:]}", [])
        elif steps:
            steps[-1].shown.append(line)
    return steps


def played(step: Step, folder: Path) -> list[str]:
    """What a command shows where `newton` stands in the folder `bin` of this one."""
    given = "".join(f"{line}\n" for line in step.shown[::2]) if step.is_talk() else ""
    ran = subprocess.run(
        ["bash", "-c", step.command],
        input=given.encode(),
        stdout=subprocess.PIPE,
        stderr=subprocess.STDOUT,
        cwd=folder / "at",
        env={**os.environ, "LC_ALL": "C", "PATH": f"{folder / 'bin'}:{os.environ['PATH']}"},
    )
    found = ran.stdout.decode(errors="replace").splitlines()
    both = zip_longest(step.shown[::2], found, fillvalue="nothing")
    return [it for pair in both for it in pair] if step.is_talk() else found


def differing_steps(steps: list[Step], newton: str) -> list[str]:
    with tempfile.TemporaryDirectory() as name:
        folder = Path(name)
        (folder / "bin").mkdir()
        (folder / "at").mkdir()
        (folder / "bin/newton").write_text(f'#!/bin/sh\nexec {newton} "$@"\n')
        (folder / "bin/newton").chmod(0o755)
        wrong = []
        for step in steps:
            found = played(step, folder)
            for want, line in zip_longest(step.shown, found, fillvalue="nothing"):
                wrong += [] if want == line else [f"$ {step.command}\n  wanted {want}\n  found  {line}"]
        return wrong


def main(program: str = "") -> int:
    single, session = of_commands()
    wrong = []
    for examples, units in ((single, 0), (session, 2), (of_formats(), 0)):
        wrong += differing(examples, by_reference(units)(examples))
        if program:
            wrong += differing(examples, by_program(Path(program).resolve(), units)(examples))
    for steps in shells():
        if not is_of_the_program(steps):
            wrong += differing_steps(steps, f"'{sys.executable}' '{REFERENCE / 'newton.py'}'")
        if program:
            wrong += differing_steps(steps, f"'{Path(program).resolve()}'")
    store = store_of_image(fresh_image())
    if store is None or (store.name, store.sig, len(store.soups)) != (b"Internal", 7, 0):
        wrong.append(f"the fresh image is read as {store}")
    for line in wrong:
        print(line)
    typed = sum(map(len, shells()))
    print(f"{len(single) + len(session) + len(of_formats())} examples, {typed} at a shell, an image: {len(wrong)} differ")
    return 1 if wrong else 0


if __name__ == "__main__":
    sys.exit(main(*sys.argv[1:]))
