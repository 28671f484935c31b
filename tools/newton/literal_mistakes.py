"""Where a text stops to be a literal, and why.

What is a literal says `literals` of the reference alone: its reader is run, and where it gives up the reason is looked
for. `docs/FORMATS.md`, section 2, has the grammar.
"""

import re
from functools import partial
from typing import Callable, Optional

from graphs import (
    MOST_BYTES,
    MOST_BYTES_TOGETHER,
    MOST_NODES,
    MOST_OPEN,
    MOST_SLOTS,
    Node,
    Symbol,
    Walk,
)
from literals import (
    BARRED,
    BLANKS,
    IDENTIFIER,
    IN_BARS,
    IN_QUOTES,
    INTEGER,
    LABEL,
    LABELLED,
    LARGE_ZEROS,
    WORD,
    NoLiteral,
    Reader,
)

from newton.mistakes import Mistake, Placed, Telling

BARS = re.compile(rf"\|{IN_BARS}")
QUOTED = re.compile(f'"{IN_QUOTES}')
DIGITS = re.compile(r":[0-9A-Fa-f]*")
ZEROS = re.compile(r":\*[0-9]*")


class Found(Placed, NoLiteral):
    """The text is no literal, and the place is known."""


class Pointing(Telling, Reader):
    """The reader of literals, which tells where it gives up."""

    placed = Found

    def __init__(self, text: str):
        super().__init__(text)
        self.value_at = self.name_at = self.name_end = 0
        self.made: list[tuple[Node, int]] = []

    def here(self, place: int) -> str:
        return repr(self.text[place]) if place < len(self.text) else "the end"

    def name(self) -> bytes:
        self.name_at = self.at
        name = self.told(super().name, lambda: self.bad_name(self.name_at))
        self.name_end = self.at
        return name

    def noted(self, reading: Callable) -> Optional[Symbol]:
        """The symbol that a reading gives; where it is a new one, its place is kept."""
        at, known = self.at, len(self.symbols)
        symbol = reading()
        self.made += [(symbol, at)] if len(self.symbols) > known else []
        return symbol

    def symbol(self) -> Symbol:
        return self.noted(super().symbol)

    def class_of_array(self) -> Optional[Symbol]:
        return self.noted(super().class_of_array)

    def labelled(self, label: Optional[int], node):
        self.made.append((node, self.value_at))
        given = partial(super().labelled, label, node)
        return self.told(given, lambda: (self.value_at, f"the label {label} is given twice"))

    def value(self, is_open: int):
        self.blanks()
        start = self.value_at = self.at
        return self.told(partial(super().value, is_open), lambda: self.bad_value(start))

    def binary(self, binary):
        return self.told(partial(super().binary, binary), lambda: self.bad_digits(self.at, ">"))

    def large(self, large):
        return self.told(partial(super().large, large), lambda: self.bad_zeros(self.name_end))

    def array(self, array, is_open: int):
        start = self.at - 1
        reading = partial(super().array, array, is_open)
        return self.told(reading, lambda: self.bad_container(start, is_open, "]", array))

    def frame(self, frame, is_open: int):
        start = self.at - 1
        reading = partial(super().frame, frame, is_open)
        return self.told(reading, lambda: self.bad_container(start, is_open, "}", frame))

    # Why a reader gave up.

    def bad_name(self, start: int) -> tuple[int, str]:
        if BARRED.match(self.text, start) or IDENTIFIER.match(self.text, start):
            return start, "a name has 1 to 254 bytes"
        bars = BARS.match(self.text, start)
        if not bars:
            return start, f"a name is wanted, not {self.here(start)}"
        if bars.end() == len(self.text):
            return start, "this bar is never closed"
        if self.text[bars.end()] == "\\":
            return bars.end(), r"between bars only \| and \\ begin with a backslash"
        return bars.end(), f"between bars stand characters from the space to the tilde, not {self.here(bars.end())}"

    def bad_value(self, start: int) -> tuple[int, str]:
        if label := LABEL.match(self.text, start):
            after = BLANKS.match(self.text, label.end()).end()
            return after, "a label stands before a string, a binary, an array or a frame alone"
        first = self.text[start : start + 1]
        if first == '"':
            return self.bad_string(start)
        if first == "#":
            labelled = LABELLED.match(self.text, start)
            reason = f"the label {int(labelled[1])} stands nowhere before this" if labelled else ""
            return start, reason or "a label is # with 1 to 5 digits and = or #"
        if first == "$":
            return start, r"a character is $ with one from ! to ~ but \, or $\ with four hexadecimal digits"
        if first == "&":
            is_word = WORD.match(self.text, start)
            reason = "the word of a pointer, whose low bits are 01, is no value"
            return start, reason if is_word else "after & stand eight hexadecimal digits"
        if INTEGER.match(self.text, start):
            return start, "an integer is from -536870912 to 536870911"
        if first == "-":
            return start, "after - stand 1 to 10 digits"
        if name := IDENTIFIER.match(self.text, start):
            return start, f"{name[0][:40]} is no value: nil and true are; a symbol begins with ', a string with \""
        return start, f"a value is wanted, not {self.here(start)}"

    def bad_string(self, start: int) -> tuple[int, str]:
        end = QUOTED.match(self.text, start).end()
        if end == len(self.text):
            return start, "this string is never closed"
        if self.text[end] == "\\":
            return end, r"after \ in a string stands a quote, a \ or a u with four hexadecimal digits"
        return end, f"in a string this character is written \\u{ord(self.text[end]):04X}"

    def bad_digits(self, start: int, closer: str) -> tuple[int, str]:
        digits = DIGITS.match(self.text, start)
        if not digits:
            return start, f"a colon is wanted after the class, not {self.here(start)}"
        end = digits.end()
        if not self.text.startswith(closer, end):
            return end, f"hexadecimal digits or {closer} are wanted, not {self.here(end)}"
        return end, "the number of hexadecimal digits is odd"

    def bad_zeros(self, start: int) -> tuple[int, str]:
        zeros = ZEROS.match(self.text, start)
        if not zeros:
            return self.bad_digits(start, ">>")
        if LARGE_ZEROS.match(self.text, start):
            return start + 2, f"a large binary has at most {MOST_BYTES} bytes"
        if not 1 <= zeros.end() - start - 2 <= 7:
            return start + 2, "a count of bytes has 1 to 7 digits"
        return zeros.end(), f">> is wanted, not {self.here(zeros.end())}"

    def bad_container(self, start: int, is_open: int, closer: str, node) -> tuple[int, str]:
        if is_open >= MOST_OPEN:
            return start, f"{MOST_OPEN} arrays and frames are open here already"
        return self.bad_list(start, closer, node)

    def bad_list(self, start: int, closer: str, node) -> tuple[int, str]:
        if closer == "}" and len(node.tags) > len(node.values):
            return self.at, f"a colon is wanted after the name of a slot, not {self.here(self.at)}"
        if closer == "}" and self.at == self.name_end and self.text[self.name_at - 1] != "'":
            return self.name_at, f"the frame has the slot {self.text[self.name_at : self.name_end][:40]} already"
        if self.at == len(self.text):
            return start, f"this is never closed: {closer} is wanted at the end"
        reason = f"a comma or {closer} is wanted, not {self.here(self.at)}"
        return self.at, reason + self.hint(self.at)

    def hint(self, place: int) -> str:
        """What is often meant where a number goes on."""
        if not self.text[place - 1].isdigit():
            return ""
        if self.text[place] == ".":
            return " (1.5 is written as a binary, <real:3FF8000000000000>)"
        return " (a number has at most 10 digits)" if self.text[place].isdigit() else ""

    def past_a_limit(self) -> tuple[int, str]:
        """The first object with which a limit is passed."""
        together = 0
        for number, (node, at) in enumerate(self.made, 1):
            together += node.size()
            if number > MOST_NODES:
                return at, f"one object too many: a graph has at most {MOST_NODES}"
            if node.slots() > MOST_SLOTS:
                return at, f"more than {MOST_SLOTS} values"
            if node.size() > MOST_BYTES:
                return at, f"more than {MOST_BYTES} bytes (a string has two for each character, and two more)"
            if together > MOST_BYTES_TOGETHER:
                return at, f"more than {MOST_BYTES_TOGETHER} bytes of strings and binaries together"
        return 0, "it passes a limit of one graph"


def mistake_in(data: bytes) -> Optional[Mistake]:
    """The mistake in a text that is to be a literal, if there is one. Places count characters."""
    try:
        text = data.decode()
    except UnicodeDecodeError as fault:
        return Mistake(len(data[: fault.start].decode()), "this byte is not UTF-8")
    reader = Pointing(text)
    try:
        root = reader.value(0)
    except Found as found:
        return found.mistake
    reader.blanks()
    if reader.left():
        return Mistake(reader.at, "the literal ends before this")
    return None if Walk(root).keeps_limits() else Mistake(*reader.past_a_limit())
