"""Entries as JSON, both ways. `docs/TOOLS.md` has the table of the forms."""

import json
import re
from typing import Iterator, Optional

from graphs import (
    NIL,
    TRUE,
    Array,
    Binary,
    Frame,
    Large,
    Ref,
    String,
    Symbol,
    Walk,
    character,
    integer,
    units_of,
    word_of_character,
)

from newton.values import (
    REAL,
    Given,
    NoValue,
    Symbols,
    integer_word,
    is_writable,
    real_data,
    real_of,
    text_of,
    wants,
    wants_entry,
)

FORMS = {
    "$symbol": {"$symbol"},
    "$char": {"$char"},
    "$word": {"$word"},
    "$binary": {"$binary", "class"},
    "$large": {"$large", "class"},
    "$array": {"$array", "class"},
    "$frame": {"$frame"},
    "$label": {"$label", "value"},
    "$ref": {"$ref"},
}
ENTRY = {"$entry", "time", "frame"}
BLANKS = re.compile(r"[ \t\r\n]*")


class Writer:
    """Writes one graph."""

    def __init__(self, root: Ref):
        self.labels = Walk(root).labels()
        self.written: set[int] = set()

    def value(self, value: Ref) -> object:
        label = None if isinstance(value, int) else self.labels.get(id(value))
        if label is None:
            return self.plain(value)
        if label in self.written:
            return {"$ref": label}
        self.written.add(label)
        return {"$label": label, "value": self.plain(value)}

    def plain(self, value: Ref) -> object:
        if isinstance(value, int):
            return of_immediate(value)
        if isinstance(value, Symbol):
            return {"$symbol": value.name.decode()}
        if isinstance(value, String):
            return text_of(value)
        if isinstance(value, Binary):
            return of_binary(value)
        if isinstance(value, Array):
            values = [self.value(it) for it in value.values]
            return values if value.kind is None else {"$array": values, "class": value.kind.name.decode()}
        slots = {tag.name.decode(): self.value(it) for tag, it in zip(value.tags, value.values)}
        return {"$frame": slots} if any(it.startswith("$") for it in slots) else slots


def of_immediate(word: int) -> object:
    number, code = integer(word), character(word)
    if number is not None:
        return number
    if word in (NIL, TRUE):
        return True if word == TRUE else None
    return {"$word": f"{word:08X}"} if code is None else {"$char": chr(code)}


def of_binary(binary: Binary) -> object:
    number = real_of(binary)
    if number is not None:
        return number
    form = "$large" if isinstance(binary, Large) else "$binary"
    return {form: binary.data.hex().upper(), "class": binary.kind.name.decode()}


class Reader:
    """Reads one graph."""

    def __init__(self) -> None:
        self.symbols = Symbols()
        self.labels: dict[int, Ref] = {}

    def labelled(self, label: Optional[int], node: Ref) -> Ref:
        if label is not None:
            wants(label not in self.labels, f"the label {label} twice")
            wants(not isinstance(node, (int, Symbol)), f"the label {label} before no object")
            self.labels[label] = node
        return node

    def value(self, given: object, label: Optional[int] = None) -> Ref:
        if given is None or isinstance(given, bool):
            return self.labelled(label, TRUE if given else NIL)
        if isinstance(given, int):
            return self.labelled(label, integer_word(given))
        if isinstance(given, float):
            return self.labelled(label, Binary(self.symbols.of(REAL.decode()), real_data(given)))
        if isinstance(given, str):
            return self.labelled(label, String(units_of(given)))
        if isinstance(given, list):
            return self.array(self.labelled(label, Array()), given)
        form = next((it for it in given if it.startswith("$")), None)
        if form is None:
            return self.frame(self.labelled(label, Frame()), given)
        wants(form in FORMS, f"{form} is no form; a frame with such a slot is {{\"$frame\": {{..}}}}")
        wants(set(given) == FORMS[form], f"{form} wants the keys {', '.join(sorted(FORMS[form]))}")
        return self.special(form, given, label)

    def special(self, form: str, given: dict, label: Optional[int]) -> Ref:
        inner = given[form]
        if form in ("$label", "$ref"):
            wants(type(inner) is int, f"{form} wants a number")
        if form == "$label":
            wants(label is None, "a label before a label")
            return self.value(given["value"], inner)
        if form == "$ref":
            wants(inner in self.labels and label is None, f"the label {inner} stands nowhere before")
            return self.labels[inner]
        if form == "$array":
            wants(isinstance(inner, list), "$array wants an array")
            array = self.labelled(label, Array())
            array.kind = self.symbols.of(given["class"])
            return self.array(array, inner)
        if form == "$frame":
            wants(isinstance(inner, dict), "$frame wants an object")
            return self.frame(self.labelled(label, Frame()), inner)
        wants(isinstance(inner, str), f"{form} wants a text")
        if form in ("$binary", "$large"):
            wants(re.fullmatch("(?:[0-9A-Fa-f]{2})*", inner), f"{form} wants hexadecimal digits")
            kind = Large if form == "$large" else Binary
            return self.labelled(label, kind(self.symbols.of(given["class"]), bytes.fromhex(inner)))
        return self.labelled(label, self.symbols.of(inner) if form == "$symbol" else immediate(form, inner))

    def array(self, array: Array, given: list) -> Array:
        for it in given:
            array.values.append(self.value(it))
        return array

    def frame(self, frame: Frame, given: dict) -> Frame:
        for name, it in given.items():
            tag = self.symbols.of(name)
            wants(all(it is not tag for it in frame.tags), f"the slot {name} twice")
            frame.tags.append(tag)
            frame.values.append(self.value(it))
        return frame


def immediate(form: str, text: str) -> int:
    if form == "$char":
        units = units_of(text)
        wants(len(units) == 1, "$char wants one character up to 65,535")
        return word_of_character(units[0])
    wants(re.fullmatch("[0-9A-Fa-f]{8}", text), "$word wants eight hexadecimal digits")
    wants(int(text, 16) & 3 != 1, f"{text} is the word of no immediate")
    return int(text, 16)


def written(value: object) -> str:
    text = json.dumps(value, ensure_ascii=False)
    return text if is_writable(text) else json.dumps(value)


def of_entry(graph: Frame) -> str:
    return written(Writer(graph).value(graph))


def of_entry_with_id(graph: Frame, uid: int, time: int) -> str:
    return written({"$entry": uid, "time": time, "frame": Writer(graph).value(graph)})


def slots(pairs: list) -> dict:
    found = dict(pairs)
    wants(len(found) == len(pairs), "an object has one key twice")
    return found


def no_constant(word: str) -> None:
    raise NoValue(f"{word} is no finite number")


def values(text: str) -> Iterator[tuple[object, str]]:
    """Each value that a text holds, with its place: values one after the other, or one array of them."""
    decoder = json.JSONDecoder(object_pairs_hook=slots, parse_constant=no_constant)
    found, at = [], BLANKS.match(text).end()
    while at < len(text):
        place = f"line {text.count(chr(10), 0, at) + 1}"
        try:
            value, at = decoder.raw_decode(text, at)
        except json.JSONDecodeError as fault:
            raise NoValue(f"line {fault.lineno}, column {fault.colno}: {fault.msg}") from fault
        except (NoValue, ValueError, RecursionError) as fault:
            raise NoValue(f"{place}: {fault}") from fault
        found.append((value, place))
        at = BLANKS.match(text, at).end()
    if len(found) == 1 and isinstance(found[0][0], list):
        return ((value, f"element {number}") for number, value in enumerate(found[0][0], 1))
    return iter(found)


def entry_of(value: object, place: str) -> Given:
    time = None
    try:
        if isinstance(value, dict) and set(value) == ENTRY:
            time, value = value["time"], value["frame"]
            wants(isinstance(time, int) and 0 <= time < 1 << 32, f"{time} is no minute")
        return Given(wants_entry(Reader().value(value)), time, place)
    except (NoValue, RecursionError) as fault:
        raise NoValue(f"{place}: {fault}") from fault


def entries(text: str) -> list[Given]:
    """The entries that a text says."""
    return [entry_of(value, place) for value, place in values(text)]
