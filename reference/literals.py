"""Literals: the graph that a text writes down, and the printed text of a graph."""

import re
from typing import Callable, Optional

from graphs import (
    LEAST_INTEGER,
    MOST_BYTES,
    MOST_INTEGER,
    MOST_OPEN,
    NIL,
    TRUE,
    Array,
    Binary,
    Frame,
    Large,
    Ref,
    String,
    Symbol,
    Walk,
    character,
    integer,
    units_of,
    word_of_character,
    word_of_integer,
)
from scanner import Scanner

IDENTIFIER = re.compile(r"[A-Za-z_][A-Za-z0-9_]*")
IN_BARS = r"(?:[ -\[\]-{}~]|\\[\\|])*"
BARRED = re.compile(rf"\|({IN_BARS})\|")
INTEGER = re.compile(r"-?[0-9]{1,10}")
BLANKS = re.compile(r"[ \t\r\n]*")
PLAIN_CHARACTER = re.compile(r"\$([!-\[\]-~])")
CODED_CHARACTER = re.compile(r"\$\\([0-9A-Fa-f]{4})")
WORD = re.compile(r"&([0-9A-Fa-f]{8})")
IN_QUOTES = r'(?:[^\x00-\x1f"\\]|\\["\\]|\\u[0-9A-Fa-f]{4})*'
STRING = re.compile(f'"({IN_QUOTES})"')
STRING_PART = re.compile(r"\\u([0-9A-Fa-f]{4})|\\(.)|(.)", re.DOTALL)
DATA = re.compile(r":((?:[0-9A-Fa-f]{2})*)>")
LARGE_DATA = re.compile(r":((?:[0-9A-Fa-f]{2})*)>>")
LARGE_ZEROS = re.compile(r":\*([0-9]{1,7})>>")
LABEL = re.compile(r"#([0-9]{1,5})=")
LABELLED = re.compile(r"#([0-9]{1,5})#")


class NoLiteral(Exception):
    """The text is no literal."""


class Reader(Scanner):
    """A text that is read once, from its first character on."""

    fault = NoLiteral

    def __init__(self, text: str):
        super().__init__(text)
        self.symbols: dict[bytes, Symbol] = {}
        self.labels: dict[int, Ref] = {}

    def blanks(self) -> None:
        self.found(BLANKS)

    def name(self) -> bytes:
        barred = self.found(BARRED)
        plain = None if barred else self.found(IDENTIFIER)
        self.wants(barred or plain)
        name = re.sub(r"\\(.)", r"\1", barred[1]) if barred else plain[0]
        self.wants(1 <= len(name) <= 254)
        return name.encode()

    def symbol(self) -> Symbol:
        name = self.name()
        return self.symbols.setdefault(name.lower(), Symbol(name))

    def labelled(self, label: Optional[int], node):
        self.wants(label not in self.labels)
        if label is not None:
            self.labels[label] = node
        return node

    def value(self, is_open: int) -> Ref:
        self.blanks()
        if label := self.found(LABEL):
            self.blanks()
            node = self.object(int(label[1]), is_open)
            self.wants(node is not None)
            return node
        node = self.object(None, is_open)
        return self.simple() if node is None else node

    def simple(self) -> Ref:
        """A value that no label may stand before."""
        if self.passes("'"):
            return self.symbol()
        if label := self.found(LABELLED):
            self.wants(int(label[1]) in self.labels)
            return self.labels[int(label[1])]
        if number := self.found(INTEGER):
            self.wants(LEAST_INTEGER <= int(number[0]) <= MOST_INTEGER)
            return word_of_integer(int(number[0]))
        return self.special()

    def special(self) -> int:
        if plain := self.found(PLAIN_CHARACTER):
            return word_of_character(ord(plain[1]))
        if coded := self.found(CODED_CHARACTER):
            return word_of_character(int(coded[1], 16))
        if word := self.found(WORD):
            self.wants(int(word[1], 16) & 3 != 1)
            return int(word[1], 16)
        name = self.found(IDENTIFIER)
        self.wants(name and name[0] in ("nil", "true"))
        return NIL if name[0] == "nil" else TRUE

    def object(self, label: Optional[int], is_open: int) -> Optional[Ref]:
        """A value that a label may stand before, where one stands next."""
        if string := self.found(STRING):
            return self.labelled(label, self.string(string[1]))
        if self.passes("<<"):
            return self.large(self.labelled(label, Large()))
        if self.passes("<"):
            return self.binary(self.labelled(label, Binary()))
        if self.passes("["):
            return self.array(self.labelled(label, Array()), is_open)
        if self.passes("{"):
            return self.frame(self.labelled(label, Frame()), is_open)
        return None

    def string(self, text: str) -> String:
        units = []
        for code, escaped, plain in STRING_PART.findall(text):
            units += [int(code, 16)] if code else units_of(escaped or plain)
        return String(units)

    def binary(self, binary: Binary) -> Binary:
        binary.kind = self.symbol()
        data = self.found(DATA)
        self.wants(data)
        binary.data = bytes.fromhex(data[1])
        return binary

    def large(self, large: Large) -> Large:
        large.kind = self.symbol()
        zeros = self.found(LARGE_ZEROS)
        data = None if zeros else self.found(LARGE_DATA)
        self.wants(zeros or data)
        self.wants(not zeros or int(zeros[1]) <= MOST_BYTES)
        large.data = bytes(int(zeros[1])) if zeros else bytes.fromhex(data[1])
        return large

    def class_of_array(self) -> Optional[Symbol]:
        """The class, where a name with a colon after it stands next."""
        before = self.at
        try:
            name = self.name()
            self.blanks()
            if self.passes(":"):
                return self.symbols.setdefault(name.lower(), Symbol(name))
        except NoLiteral:
            pass
        self.at = before
        return None

    def array(self, array: Array, is_open: int) -> Array:
        self.wants(is_open < MOST_OPEN)
        self.blanks()
        array.kind = self.class_of_array()
        self.blanks()
        if self.passes("]"):
            return array
        while True:
            array.values.append(self.value(is_open + 1))
            self.blanks()
            if self.passes("]"):
                return array
            self.wants(self.passes(","))

    def frame(self, frame: Frame, is_open: int) -> Frame:
        self.wants(is_open < MOST_OPEN)
        self.blanks()
        if self.passes("}"):
            return frame
        while True:
            self.blanks()
            tag = self.symbol()
            self.wants(all(it is not tag for it in frame.tags))
            frame.tags.append(tag)
            self.blanks()
            self.wants(self.passes(":"))
            frame.values.append(self.value(is_open + 1))
            self.blanks()
            if self.passes("}"):
                return frame
            self.wants(self.passes(","))


def read_literal(text: bytes) -> Ref:
    try:
        reader = Reader(text.decode())
    except UnicodeDecodeError as fault:
        raise NoLiteral from fault
    root = reader.value(0)
    reader.blanks()
    reader.wants(reader.left() == 0 and Walk(root).keeps_limits())
    return root


def of_name(name: bytes) -> str:
    text = name.decode()
    return text if IDENTIFIER.fullmatch(text) else "|" + text.replace("\\", "\\\\").replace("|", "\\|") + "|"


def of_immediate(word: int) -> str:
    number, code = integer(word), character(word)
    if number is not None:
        return str(number)
    if word in (NIL, TRUE):
        return "nil" if word == NIL else "true"
    if code is None:
        return f"&{word:08X}"
    return "$" + (chr(code) if 33 <= code <= 126 and code != 92 else f"\\{code:04X}")


def of_unit(unit: int) -> str:
    if unit in (34, 92):
        return "\\" + chr(unit)
    return chr(unit) if 32 <= unit <= 126 else f"\\u{unit:04X}"


def of_data(binary: Binary) -> str:
    return binary.data.hex().upper()


def print_literal(root: Ref, of_data: Callable[[Binary], str] = of_data) -> str:
    """The printed text of a graph, with a text for the bytes of each binary."""
    labels = Walk(root).labels()
    printed: set[int] = set()

    def labelled(value: Ref) -> str:
        if id(value) not in labels:
            return text(value)
        if id(value) in printed:
            return f"#{labels[id(value)]}#"
        printed.add(id(value))
        return f"#{labels[id(value)]}=" + text(value)

    def text(value: Ref) -> str:
        if isinstance(value, int):
            return of_immediate(value)
        if isinstance(value, Symbol):
            return "'" + of_name(value.name)
        if isinstance(value, String):
            return '"' + "".join(map(of_unit, value.units)) + '"'
        if isinstance(value, Binary):
            inner = f"<{of_name(value.kind.name)}:{of_data(value)}>"
            return f"<{inner}>" if isinstance(value, Large) else inner
        if isinstance(value, Frame):
            slots = zip(value.tags, value.values)
            return "{" + ", ".join(f"{of_name(tag.name)}: {labelled(it)}" for tag, it in slots) + "}"
        start = "" if value.kind is None else of_name(value.kind.name) + (": " if value.values else ":")
        return "[" + start + ", ".join(map(labelled, value.values)) + "]"

    return labelled(root)
