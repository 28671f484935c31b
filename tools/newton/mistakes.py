"""Places in a text or in bytes, and how they are shown: a caret under the line, with a reason."""

import sys
from typing import Callable, NamedTuple

from scanner import Scanner

WIDTH = 72
ROW = 16

# The readers that point take some ten calls for each of 200 objects that may be open at once.
sys.setrecursionlimit(20_000)


class Mistake(NamedTuple):
    """Where something is wrong, counted in characters or bytes from 0 on, and why."""

    place: int
    reason: str


class Placed(Exception):
    """A reader gave up, at a place that is known."""

    def __init__(self, place: int, reason: str):
        super().__init__(reason)
        self.mistake = Mistake(place, reason)


class Telling(Scanner):
    """A reader that tells where it gives up."""

    placed: type[Placed]

    def told(self, reading: Callable, reason: Callable) -> object:
        """What a reading gives; where it gives up without a place, the reason tells place and words."""
        try:
            return reading()
        except Placed:
            raise
        except self.fault as fault:
            raise self.placed(*reason()) from fault


def window(line: str, column: int) -> str:
    """The part of a line around a column, with a caret under that column."""
    first = max(0, column - WIDTH // 2) if len(line) > WIDTH else 0
    shown = "".join(it if it.isprintable() else " " for it in line[first : first + WIDTH])
    before, after = "..." if first else "", "..." if first + WIDTH < len(line) else ""
    return f"  {before}{shown}{after}\n  {' ' * (len(before) + column - first)}^"


def in_text(text: str, mistake: Mistake, first_line: int = 1, first_column: int = 0) -> str:
    """A mistake in a text whose first line may stand within another one."""
    start = text.rfind("\n", 0, mistake.place) + 1
    end = text.find("\n", mistake.place)
    line = text[start : len(text) if end < 0 else end].rstrip("\r")
    number = text.count("\n", 0, mistake.place)
    column = mistake.place - start + (0 if number else first_column)
    return f"{first_line + number}:{column + 1}: {mistake.reason}\n" + window(line, mistake.place - start)


def in_bytes(data: bytes, mistake: Mistake) -> str:
    start = mistake.place // ROW * ROW
    row = data[start : start + ROW].hex(" ").upper()
    caret = " " * (10 + 3 * (mistake.place - start)) + "^^"
    return f"byte {mistake.place}: {mistake.reason}\n  {start:08X}  {row}\n  {caret}"
