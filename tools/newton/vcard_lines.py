"""The lines of vCards (RFC 2426 and RFC 6350): a name, parameters and a value."""

import re
from typing import Iterator, NamedTuple, Optional

from newton.values import NoValue, wants

FOLDED = re.compile(r"\r?\n[ \t]")
PARAMETER = r';[A-Za-z0-9-]+=(?:"[^"]*"|[^";:,]*)(?:,(?:"[^"]*"|[^";:,]*))*'
LINE = re.compile(rf"((?:[A-Za-z0-9-]+\.)?)([A-Za-z0-9-]+)((?:{PARAMETER})*):(.*)", re.DOTALL)
TYPE = re.compile(r";TYPE=([A-Za-z_][A-Za-z0-9_,]*)", re.IGNORECASE)
MOST_LINE = 75
VERSIONS = ("3.0", "4.0")


class Line(NamedTuple):
    """A line as it stands unfolded, and its parts."""

    text: str
    group: str
    name: str
    parameters: str
    value: str

    def types(self) -> Optional[list[str]]:
        """The words of TYPE in lower case, where the line has no other parameter."""
        if self.group or not self.parameters:
            return None if self.group else []
        found = [TYPE.fullmatch(";" + it) for it in self.parameters[1:].split(";")]
        if not all(found):
            return None
        return [word.lower() for it in found for word in it[1].split(",") if word]


class Card(NamedTuple):
    lines: list[Line]
    place: str


def line_of(text: str, place: str) -> Line:
    found = LINE.fullmatch(text)
    wants(found, f"{place}: no name with a colon and a value: {text[:40]}")
    return Line(text, found[1], found[2].upper(), found[3], found[4])


def numbered_lines(text: str) -> Iterator[tuple[str, str]]:
    """Each line that is not blank, unfolded, with the number of its first one."""
    at = 0
    number = 1
    while at < len(text):
        end = at
        while True:
            end = text.find("\n", end)
            if end < 0 or text[end + 1 : end + 2] not in (" ", "\t"):
                break
            end += 1
        raw = text[at : len(text) if end < 0 else end]
        line = FOLDED.sub("", raw).rstrip("\r")
        if line.strip():
            yield line, f"line {number}"
        number += raw.count("\n") + 1
        at += len(raw) + 1


def cards(text: str) -> Iterator[Card]:
    """The vCards of a text, without the lines that begin and end them."""
    card: Optional[Card] = None
    for raw, place in numbered_lines(text):
        line = line_of(raw, place)
        mark = (line.name, line.value.strip().upper())
        if mark == ("BEGIN", "VCARD"):
            wants(card is None, f"{place}: a card within a card")
            card = Card([], place)
        elif mark == ("END", "VCARD"):
            wants(card is not None, f"{place}: no card has begun")
            yield checked(card)
            card = None
        else:
            wants(card is not None, f"{place}: a line before a card, which begins with BEGIN:VCARD")
            card.lines.append(line)
    if card is not None:
        raise NoValue(f"{card.place}: this card has no END:VCARD")


def checked(card: Card) -> Card:
    versions = [it.value for it in card.lines if it.name == "VERSION"]
    wants(versions in (["3.0"], ["4.0"]), f"{card.place}: a card of the version 3.0 or 4.0 is wanted")
    return card


def escaped(text: str) -> str:
    text = re.sub(r"([\\,;])", r"\\\1", text)
    return re.sub(r"\r\n|\r|\n", r"\\n", text)


def plain(text: str) -> str:
    """A text without its escapes; ends of lines are those of a Newton."""

    def of(found: re.Match) -> str:
        return "\r" if found[1] in "nN" else found[1]

    return re.sub(r"\\(.)", of, text)


def cut(text: str, at: str) -> list[str]:
    """A value cut at marks that no backslash stands before."""
    return re.findall(rf"(?:^|{at})((?:\\.|[^\\{at}])*)", text, re.DOTALL)


def folded(line: str) -> str:
    """A line in pieces of at most 75 bytes, no character of which is cut."""
    pieces, piece, size = [], "", 0
    for it in line:
        width = len(it.encode(errors="replace"))
        if size + width > MOST_LINE:
            pieces.append(piece)
            piece, size = " ", 1
        piece, size = piece + it, size + width
    return "\r\n".join([*pieces, piece]) + "\r\n"
