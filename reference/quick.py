"""The quick check: builds the program without proving it, and plays cases to it that this reference answers too.

It plays the sessions of the documents, the scripts at the limits that are short, random scripts, and every mode over
streams, literals and images, damaged ones too. It proves nothing. It ends with 0 where no case differs.
"""

import argparse
import ast
import re
import subprocess
import sys
import tempfile
from itertools import zip_longest
from pathlib import Path
from typing import Iterable, Iterator, NamedTuple

from cases import SCRIPTS, Case, DocumentDiffers, all_cases
from commands import asked

TOP = Path(__file__).resolve().parent.parent
RUNS = 6
MOST_SHOWN = 160
FOUND = re.compile(
    rb'differs from `[^`]*`: at byte (\d+), expected "(?:[^"\\]|\\.)*"(?: \([^)]*\))?, found ("(?:[^"\\]|\\.)*")'
)
ENDED = re.compile(rb"^case=(\S+) run=(.*) proved=no$")


class NotPlayed(Exception):
    """No case, no program, or one that was not played to the end: why."""


class Played(NamedTuple):
    """A case that was played: what was found of its output, and what is wrong beside that, if anything is."""

    case: Case
    found: bytes
    wrong: str

    def differs(self) -> bool:
        return bool(self.wrong) or self.found != self.case.wanted


# The files of the cases.


class Files(NamedTuple):
    """A folder with what the cases are given: `cases` as `rt try --cases` reads them, and the images in `data`."""

    folder: Path

    def cases(self) -> Path:
        return self.folder / "cases"

    def data(self) -> Path:
        return self.folder / "data"

    def keep(self, case: Case, images: dict[tuple[bytes, int], str]) -> None:
        """Writes a case. Cases that are given the same image have one file of it, and the words name that."""
        names, copies = {}, []
        for word, image in case.files.items():
            names[word] = images.setdefault((image, copies.count(image)), f"card{len(images)}")
            (self.data() / names[word]).write_bytes(image)
            copies.append(image)
        words = [names.get(it, it) for it in case.words]
        for end, data in (("", case.given), (".args", "\n".join([*words, ""]).encode()), (".stdout", case.wanted)):
            (self.cases() / f"{case.name}{end}").write_bytes(data)


def kept(folder: Path, cases: list[Case]) -> Files:
    files, images = Files(folder), {}
    for it in (files.cases(), files.data()):
        it.mkdir(parents=True)
    for case in cases:
        files.keep(case, images)
    return files


# Playing them.


def by_try(cases: list[Case], files: Files) -> Iterator[Played]:
    """Builds the program with the checks of `rt try`, which runs it on each case."""
    data = [word for it in sorted(files.data().iterdir()) for word in ("--data", f"{it.name}={it}")]
    words = ["rt", "try", *data, "--cases", str(files.cases())]
    by_name, said = {it.name: it for it in cases}, []
    with subprocess.Popen(words, cwd=TOP / "crates/newton", stdout=subprocess.DEVNULL, stderr=subprocess.PIPE) as ran:
        for line in ran.stderr:
            ended = ENDED.match(line.rstrip())
            if ended:
                yield played(by_name.pop(ended[1].decode()), ended[2].decode(), b"".join(said))
                said = []
            else:
                said.append(line)
    if by_name:
        why = b"".join(said).decode(errors="replace")
        raise NotPlayed(f"{why}{len(by_name)} of {len(cases)} cases were not played")


def played(case: Case, ended: str, said: bytes) -> Played:
    """What `rt try` says of a case: how it ended, and where its output begins to differ."""
    differs, is_well = FOUND.search(said), ended.startswith(f"ended status={case.status} ")
    wrong = "" if is_well and (differs or "output=expected" in ended) else f"{said.decode(errors='replace')}{ended}"
    if not differs:
        return Played(case, case.wanted, wrong)
    return Played(case, case.wanted[: int(differs[1])] + ast.literal_eval(f"b{differs[2].decode()}"), wrong)


def by_program(cases: list[Case], program: Path) -> Iterator[Played]:
    for case in cases:
        with tempfile.TemporaryDirectory() as folder:
            for name, image in case.files.items():
                Path(folder, name).write_bytes(image)
            ran = subprocess.run([program, *case.words], input=case.given, capture_output=True, cwd=folder)
        wrong = "" if ran.returncode == case.status else f"it ends with {ran.returncode}, wanted {case.status}"
        yield Played(case, ran.stdout, wrong)


# Telling what differs.


def readable(text: bytes, place: int = 0) -> str:
    """A text with its other bytes escaped; of a long one what stands round a place."""
    begin = max(0, place - MOST_SHOWN // 2) if len(text) > MOST_SHOWN else 0
    shown = repr(text[begin : begin + MOST_SHOWN])[2:-1]
    return f"{'.. ' * (begin > 0)}{shown}{' ..' * (begin + MOST_SHOWN < len(text))}" or "nothing"


def first_difference(items: Iterable, others: Iterable) -> int:
    """The place of the first items that are not the same, or where one of both ends."""
    return next((at for at, (one, other) in enumerate(zip_longest(items, others)) if one != other), 0)


def told(it: Played) -> str:
    """The first line whose reply differs, with what is wanted and what is found; in other modes the words and input."""
    if it.found == it.case.wanted:
        return f"  {it.wrong}"
    lines = asked(it.case.given) if it.case.words[0] == "run" else []
    wanted, found = it.case.wanted.splitlines(keepends=True), it.found.splitlines(keepends=True)
    at = first_difference(wanted, found)
    line = lines[at] if at < len(lines) else " ".join(it.case.words).encode() + b" < " + it.case.given
    replies = [b"".join(replies[at : at + 1]) for replies in (wanted, found)]
    place = first_difference(*replies)
    shown = {"line": readable(line), "wanted": readable(replies[0], place), "found": readable(replies[1], place)}
    return "\n".join([f"  {word:6}  {text}" for word, text in shown.items()] + ([it.wrong] if it.wrong else []))


def again(case: Case, options: argparse.Namespace) -> str:
    words = [".ci/quick", f"--seed {options.seed}", f"--count {options.count}", f"--only {case.name}"]
    return " ".join(words + ([str(options.program)] if options.program else []))


def compared(cases: list[Case], options: argparse.Namespace, files: Files) -> int:
    """Plays the cases and tells how each went; how many differ."""
    names = []
    for at, it in enumerate(by_program(cases, options.program) if options.program else by_try(cases, files)):
        print(f"{at + 1:4} of {len(cases)}  {it.case.name}{'  DIFFERS' if it.differs() else ''}", flush=True)
        if it.differs() and not names:
            print(f"{told(it)}\nonce more:  {again(it.case, options)}", flush=True)
        names += [it.case.name] if it.differs() else []
    print(f"{len(cases)} cases were played, {len(names)} differ, and nothing was proved.", *names)
    return len(names)


def chosen(cases: list[Case], word: str) -> list[Case]:
    """The case of a name, or where none has it those whose names have the word."""
    return [it for it in cases if it.name == word] or [it for it in cases if word in it.name]


def absolute(name: str) -> Path:
    return Path(name).resolve()


def options_of(words: list[str]) -> argparse.Namespace:
    parser = argparse.ArgumentParser(".ci/quick", description=__doc__)
    parser.add_argument("program", nargs="?", type=absolute, help="a program that is built, in place of rt try")
    parser.add_argument("--seed", type=int, default=0, help="the first seed of what is random: 0 if left out")
    parser.add_argument("--count", type=int, default=RUNS, help=f"runs of {SCRIPTS} random scripts: {RUNS} if left out")
    parser.add_argument("--only", metavar="WORD", default="", help="the cases alone whose names have this word")
    parser.add_argument("--keep", metavar="FOLDER", type=absolute, help="a new folder, where their files stay")
    return parser.parse_args(words)


def played_with(options: argparse.Namespace) -> int:
    """The status of playing the cases that the options ask for."""
    cases = chosen(list(all_cases(options.seed, options.count)), options.only)
    if not cases:
        raise NotPlayed(f"no case has {options.only} in its name")
    with tempfile.TemporaryDirectory() as folder:
        files = kept(options.keep or Path(folder), cases)
        if not options.program:
            print(f"rt try builds the program, in a minute or two, and plays {len(cases)} cases", flush=True)
        return 1 if compared(cases, options, files) else 0


def main(words: list[str]) -> int:
    options = options_of(words)
    if options.keep and options.keep.exists():
        print(f"{options.keep} is there already")
        return 2
    try:
        return played_with(options)
    except (NotPlayed, DocumentDiffers) as fault:
        print(fault)
        return 1


if __name__ == "__main__":
    sys.exit(main(sys.argv[1:]))
