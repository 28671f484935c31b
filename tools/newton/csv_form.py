"""Entries as CSV, both ways: a row for an entry, a column for a slot. `docs/TOOLS.md` says the rules."""

import csv
import io
import re
from dataclasses import dataclass
from typing import Iterator, Optional

from graphs import (
    NIL,
    TRUE,
    Binary,
    Frame,
    Ref,
    String,
    Symbol,
    Walk,
    character,
    integer,
    units_of,
    with_symbols,
    word_of_character,
)
from literals import NoLiteral, Reader, of_name, print_literal, read_literal
from streams import encode_flat

from newton.values import (
    REAL,
    Given,
    NoValue,
    Symbols,
    integer_word,
    is_slot_name,
    is_writable,
    real_data,
    real_of,
    text_of,
    wants,
    wants_entry,
)

KINDS = ("string", "int", "real", "symbol", "char", "bool")
KIND = re.compile(f":({'|'.join(KINDS)})")
ID, TIME = "$id", "$time"
LITERAL = "\\"
PLAIN_CONTROLS = "\t\r\n"
MOST_CELL = 5_000_000

Row = list[tuple[tuple, Ref]]  # the values of an entry with their paths


@dataclass
class Column:
    """The slot that a path of names reaches, and of which kind the most of its values are."""

    path: tuple
    kind: str = "string"

    def heading(self) -> str:
        names = ".".join(of_name(it) for it in self.path)
        return names if self.kind == "string" else f"{names}:{self.kind}"


def kind_of(value: Ref) -> Optional[str]:
    """The kind of column in which a value stands as itself."""
    if isinstance(value, int):
        if value in (NIL, TRUE):
            return "bool"
        code = character(value)
        is_shown = code is not None and 33 <= code <= 126 and chr(code) != LITERAL
        return "int" if integer(value) is not None else "char" if is_shown else None
    if isinstance(value, Symbol):
        return None if value.name.startswith(LITERAL.encode()) else "symbol"
    if isinstance(value, String):
        text = text_of(value)
        is_plain = text and is_writable(text) and not text.startswith(LITERAL)
        is_plain = is_plain and all(it >= " " or it in PLAIN_CONTROLS for it in text)
        return "string" if is_plain else None
    return None if real_of(value) is None else "real"


def cell_of(value: Ref, kind: str) -> str:
    if kind_of(value) != kind:
        return LITERAL + print_literal(value)
    if kind == "string":
        return text_of(value)
    if kind == "symbol":
        return value.name.decode()
    if kind == "real":
        return repr(real_of(value))
    return chr(character(value)) if kind == "char" else print_literal(value)


def leaves(root: Frame) -> Row:
    """The values of an entry with their paths: frames that one slot alone leads to are spread."""
    shared, found = Walk(root).shared, []

    def spread(frame: Frame, path: tuple) -> None:
        for tag, value in zip(frame.tags, frame.values):
            here = (*path, tag.name)
            if isinstance(value, Frame) and value.tags and id(value) not in shared:
                spread(value, here)
            else:
                found.append((here, value))

    spread(root, ())
    return found


def columns_of(rows: list[Row]) -> list[Column]:
    """A column for each path, in an order that most entries have."""
    paths: list[tuple] = []
    votes: dict[tuple, list] = {}
    for row in rows:
        at = -1
        for path, value in row:
            if path in votes:
                at = paths.index(path)
            else:
                at += 1
                paths.insert(at, path)
                votes[path] = []
            votes[path] += [kind_of(value)] if value != NIL else []
    return [Column(path, most_frequent(votes[path])) for path in paths]


def most_frequent(kinds: list[Optional[str]]) -> str:
    if not kinds:
        return "bool"
    counts = [kinds.count(it) for it in KINDS]
    return KINDS[counts.index(max(counts))]


def row_text(cells: list[str]) -> str:
    """A row with a newline at its end; cells with ends of lines in them are quoted."""
    text = io.StringIO()
    csv.writer(text, lineterminator="\r\n").writerow(cells)
    return text.getvalue()[:-2] + "\n"


class Table:
    """The entries of a soup as rows, and what of them no row says."""

    def __init__(self, entries: tuple, with_ids: bool):
        self.entries, self.with_ids = entries, with_ids
        self.rows = [leaves(it.graph) for it in entries]
        self.columns = columns_of(self.rows)
        self.left_out: list[str] = []

    def lines(self) -> Iterator[str]:
        if self.entries:
            yield row_text([ID, TIME] * self.with_ids + [it.heading() for it in self.columns])
        for entry, row in zip(self.entries, self.rows):
            values = dict(row)
            cells = [cell_of(values[it.path], it.kind) if it.path in values else "" for it in self.columns]
            reason = self.unsaid(entry.graph, row, cells)
            if reason:
                self.left_out.append(f"the entry {entry.uid}: {reason}")
            else:
                yield row_text([str(entry.uid), str(entry.time)] * self.with_ids + cells)

    def unsaid(self, graph: Frame, row: Row, cells: list[str]) -> Optional[str]:
        """Why a row does not say an entry, where it does not."""
        if not self.columns:
            return "there is no column, since no entry has a slot"
        try:
            if encode_flat(graph_of(self.columns, cells)) == encode_flat(graph):
                return None
        except NoValue as fault:
            return str(fault)
        paths = [path for path, _ in row]
        if sorted(paths, key=[it.path for it in self.columns].index) != paths:
            return "its slots stand in another order than the columns"
        return "an object of it is in two slots, or a name is spelled in two ways"


# The way back.


def columns_from(headings: list[str]) -> list[Optional[Column]]:
    found = [None if it in (ID, TIME) else column_from(it.strip(), at) for at, it in enumerate(headings, 1)]
    paths = [it.path for it in found if it is not None]
    wants(len(set(paths)) == len(paths), "line 1: two columns have one name")
    return found


def column_from(heading: str, number: int) -> Column:
    """The column of a heading: a path with the type of its cells, or the name of one slot as it stands."""
    try:
        return typed_column(Reader(heading))
    except NoLiteral as fault:
        reason = f"line 1: the heading {heading!r} of column {number} is no name of a slot"
        if not is_slot_name(heading):
            raise NoValue(reason) from fault
        return Column((heading.encode(),))


def typed_column(heading: Reader) -> Column:
    path = [heading.name()]
    while heading.passes("."):
        path.append(heading.name())
    kind = heading.found(KIND)
    heading.wants(heading.left() == 0)
    return Column(tuple(path), kind[1] if kind else "string")


def value_of(text: str, kind: str) -> Ref:
    if text.startswith(LITERAL):
        try:
            return read_literal(text[1:].encode())
        except NoLiteral as fault:
            raise NoValue(f"{text[1:]} is no literal (`where` shows why)") from fault
    if kind == "string":
        return String(units_of(text))
    if kind == "symbol":
        return Symbols().of(text)
    word = text.strip()
    if kind == "bool":
        wants(word.lower() in ("true", "nil", "false"), f"{word} is neither true nor nil")
        return TRUE if word.lower() == "true" else NIL
    if kind == "char":
        wants(len(units_of(word)) == 1, f"{word} is not one character")
        return word_of_character(ord(word))
    if kind == "int":
        wants(re.fullmatch("-?[0-9]+", word), f"{word} is no integer")
        return integer_word(int(word))
    wants(re.fullmatch(r"[-+]?[0-9.]+(?:[eE][-+]?[0-9]+)?", word), f"{word} is no number")
    return Binary(Symbols().of(REAL.decode()), real_data(float(word)))


def graph_of(columns: list[Column], cells: list[str]) -> Frame:
    """The entry of a row: an empty cell is a slot that is missing."""
    root = Frame()
    for column, cell in zip(columns, cells):
        if cell == "":
            continue
        frame = root
        for name in column.path[:-1]:
            frame = inner_frame(frame, name)
        wants(frame.slot(column.path[-1]) is None, f"the slot {column.heading()} twice")
        frame.tags.append(Symbol(column.path[-1]))
        frame.values.append(value_of(cell, column.kind))
    return with_symbols(root, {})


def inner_frame(frame: Frame, name: bytes) -> Frame:
    place = frame.slot(name)
    if place is None:
        frame.tags.append(Symbol(name))
        frame.values.append(Frame())
        place = -1
    wants(isinstance(frame.values[place], Frame), f"the slot {name.decode()} is a frame and another value")
    return frame.values[place]


def entry_of(headings: list[str], columns: list[Optional[Column]], row: list[str], place: str) -> Given:
    try:
        wants(len(row) == len(columns), f"{len(row)} cells, and {len(columns)} columns")
        slots = [(it, cell) for it, cell in zip(columns, row) if it is not None]
        graph = graph_of([it for it, _ in slots], [cell for _, cell in slots])
        times = [cell for heading, cell in zip(headings, row) if heading == TIME]
        wants(all(re.fullmatch("[0-9]{1,10}", it) for it in times), "no minute")
        return Given(wants_entry(graph), int(times[0]) if times else None, place)
    except (NoValue, ValueError) as fault:
        raise NoValue(f"{place}: {fault}") from fault


def entries(text: str) -> list[Given]:
    """The entries that the rows of a text say."""
    csv.field_size_limit(MOST_CELL)
    reader = csv.reader(io.StringIO(text, newline=""), strict=True)
    found: list[Given] = []
    headings, columns = None, None
    try:
        for row in reader:
            if columns is None:
                headings, columns = row, columns_from(row)
            elif row:
                found.append(entry_of(headings, columns, row, f"line {reader.line_num}"))
    except csv.Error as fault:
        raise NoValue(f"line {reader.line_num}: {fault}") from fault
    return found
