"""Where the program runs over files, behind the library torn.c: what torn.py, thrown.py and restores.py share."""

import os
import shutil
import subprocess
import tempfile
from collections import Counter
from dataclasses import dataclass, field
from pathlib import Path
from typing import Callable, Optional

from images import BLOCK
from preload import built_library

MOST_SECONDS = 60


class Differs(Exception):
    """What the program does or leaves is not what is wanted."""


@dataclass
class Bench:
    """A folder with the files of some units, and what was counted so far."""

    program: Path
    library: Optional[Path]
    folder: Path
    blocks: tuple = ()
    counts: Counter = field(default_factory=Counter)

    def files(self) -> list[Path]:
        return [self.folder / f"unit{at}" for at in range(len(self.blocks))]

    def images(self) -> list[bytes]:
        return [it.read_bytes() for it in self.files()]

    def blank(self) -> None:
        for file, count in zip(self.files(), self.blocks):
            file.write_bytes(bytes(BLOCK * count))

    def ran(self, words: list, given: bytes, **torn: object) -> subprocess.CompletedProcess:
        """A run of the program, where the library is told these values by their names."""
        told = {"LD_PRELOAD": str(self.library), "TORN_TOLD": str(self.folder / "told")} if self.library else {}
        told |= {f"TORN_{name.upper()}": str(value) for name, value in torn.items()}
        self.counts["runs"] += 1
        return subprocess.run(
            [self.program, *words], input=given, capture_output=True, env={**os.environ, **told}, timeout=MOST_SECONDS
        )

    def replies(self, script: list, statuses: tuple, **torn: object) -> tuple[int, list[str]]:
        """The status of a script over the files, which is to be one of these, and its replies."""
        ran = self.ran(["run", *self.files()], b"\n".join(script) + b"\n", **torn)
        if ran.returncode not in statuses or ran.stderr:
            raise Differs(f"the program ended with {ran.returncode} and {ran.stderr!r}")
        return ran.returncode, ran.stdout.decode().splitlines()

    def told(self) -> tuple[int, int, int]:
        """Of the last run that ended by itself: its calls, how many failed, and how many ranges no sync has reached."""
        calls, _, failed, pending = map(int, (self.folder / "told").read_text().split())
        return calls, failed, pending


def over_seeds(kind: type[Bench], compared: Callable, program: str, first: str, count: str, times: str) -> int:
    """Compares with COUNT seeds from FIRST on. The library is there where TIMES is not 0; files that differ stay."""
    folder = Path(tempfile.mkdtemp())
    library = built_library("torn", folder) if int(times) else None
    bench = kind(Path(program).resolve(), library, folder)
    for seed in range(int(first), int(first) + int(count)):
        try:
            compared(bench, seed, int(times))
        except Differs as fault:
            print(f"seed {seed}: {fault}\nthe files are in {folder}")
            return 1
    shutil.rmtree(folder)
    told = ", ".join(f"{number} {name}" for name, number in sorted(bench.counts.items()))
    print(f"{count} seeds from {first} on, {times} times each: no difference\n{told}")
    return 0
