"""Entries of an address book as vCards, both ways. `docs/TOOLS.md` has the table of the slots.

A line that has no slot of its own is kept as it stands in the slot `vCard`, so that nothing is lost on the way.
"""

import base64
import json
import re
from binascii import Error
from typing import Iterator, Optional

from graphs import Array, Frame, Large, Ref, String, Symbol
from lines import IDENTIFIER

from newton.json_form import Reader, Writer
from newton.values import Given, NoValue, is_writable, text_of, wants_entry
from newton.vcard_lines import Card, Line, cards, cut, escaped, folded, plain

NAME_PARTS = ("last", "first", "middle", "prefix", "suffix")
ADDRESS_PARTS = ("box", "extended", "street", "city", "region", "postalCode", "country")
ORGANISATION_PARTS = ("company", "department")
TEXTS = {"FN": "fullName", "TITLE": "title", "BDAY": "birthday", "URL": "url", "NOTE": "note", "NICKNAME": "nickname"}
LISTS = {"TEL": ("phones", ("number",)), "EMAIL": ("emails", ("address",)), "ADR": ("addresses", ADDRESS_PARTS)}
PHOTO = re.compile(r"data:image/([A-Za-z0-9]+);base64,(.*)", re.DOTALL)
PHOTO_TYPE = re.compile(r"(?:;ENCODING=b|;TYPE=([A-Za-z0-9]+))+", re.IGNORECASE)
OTHERS = "vCard"
ORDER = ("name", "fullName", "nickname", "company", "department", "title", "birthday", "phones", "emails")
ORDER += ("addresses", "url", "note", "group", "photo", OTHERS)


def parts_of(value: str, names: tuple) -> Optional[dict]:
    """The parts of a value by their names, where each is one text."""
    found = cut(value, ";")
    if len(found) > len(names) or any(len(cut(it, ",")) > 1 for it in found):
        return None
    return {name: plain(it) for name, it in zip(names, found) if it}


def value_of_parts(parts: dict, names: tuple) -> str:
    return ";".join(escaped(parts.get(it, "")) for it in names)


def full_name(name: dict) -> str:
    """The name in full, as it is written where the entry has none."""
    return " ".join(name[it] for it in ("prefix", "first", "middle", "last", "suffix") if it in name)


# From a card to the JSON form of an entry.


class Reading:
    """The slots of one card."""

    def __init__(self, card: Card):
        self.slots: dict[str, object] = {}
        self.others: list[str] = []
        for line in card.lines:
            if line.text.upper() != "VERSION:3.0" and not self.takes(line):
                self.others.append(line.text)
        name = self.slots.get("name", {})
        if "fullName" in self.slots and self.slots["fullName"] == full_name(name):
            del self.slots["fullName"]
        if self.others:
            self.slots[OTHERS] = self.others
        self.slots = {it: self.slots[it] for it in ORDER if it in self.slots}

    def takes(self, line: Line) -> bool:
        """Whether a line has slots of its own, which it gets."""
        if line.name in LISTS:
            return self.takes_one_of(line, *LISTS[line.name])
        if line.name == "PHOTO" and not line.group and "photo" not in self.slots:
            return self.takes_photo(line)
        if line.group or line.parameters:
            return False
        if line.name == "N":
            return self.takes_frame("name", parts_of(line.value, NAME_PARTS))
        if line.name == "ORG":
            parts = parts_of(line.value, ORGANISATION_PARTS)
            return bool(parts) and not self.slots.keys() & parts.keys() and not self.slots.update(parts)
        if line.name == "CATEGORIES":
            return self.takes_categories([plain(it) for it in cut(line.value, ",")])
        slot = TEXTS.get(line.name)
        is_list = line.name == "NICKNAME" and len(cut(line.value, ",")) > 1
        if slot is None or slot in self.slots or is_list:
            return False
        self.slots[slot] = plain(line.value)
        return True

    def takes_frame(self, slot: str, parts: Optional[dict]) -> bool:
        if parts is None or slot in self.slots:
            return False
        if parts:
            self.slots[slot] = parts
        return True

    def takes_one_of(self, line: Line, slot: str, names: tuple) -> bool:
        types = line.types()
        parts = parts_of(line.value, names) if len(names) > 1 else {names[0]: plain(line.value)}
        if types is None or not parts:
            return False
        symbols = [{"$symbol": it} for it in types]
        kind = {"kind": symbols if len(symbols) > 1 else symbols[0]} if symbols else {}
        self.slots.setdefault(slot, []).append({**kind, **parts})
        return True

    def takes_categories(self, words: list[str]) -> bool:
        if "group" in self.slots or not all(IDENTIFIER.fullmatch(it.encode()) for it in words):
            return False
        symbols = [{"$symbol": it} for it in words]
        self.slots["group"] = symbols if len(symbols) > 1 else symbols[0]
        return True

    def takes_photo(self, line: Line) -> bool:
        data, old = PHOTO.fullmatch(line.value), PHOTO_TYPE.fullmatch(line.parameters)
        kind = data[1] if data and not line.parameters else old[1] if old else None
        try:
            photo = base64.b64decode(data[2] if data else line.value, validate=True)
        except Error:
            return False
        if kind is None:
            return False
        self.slots["photo"] = {"$large": photo.hex(), "class": kind.lower()}
        return True


def entries(text: str) -> list[Given]:
    """The entries that the vCards of a text say."""
    found = []
    for card in cards(text):
        try:
            graph = wants_entry(Reader().value(Reading(card).slots))
        except NoValue as fault:
            raise NoValue(f"{card.place}: {fault}") from fault
        found.append(Given(graph, None, card.place))
    return found


# From an entry to a card.


def texts(value: Ref, names: tuple) -> Optional[dict]:
    """The slots of a frame by their names, where they are among these names and each is a text."""
    if not isinstance(value, Frame):
        return None
    found = {tag.name.decode(): it for tag, it in zip(value.tags, value.values)}
    if not found.keys() <= set(names) or not all(isinstance(it, String) for it in found.values()):
        return None
    return {name: text_of(it) for name, it in found.items()}


def symbols(value: Ref) -> list[str]:
    """The names of a symbol, or of an array of them."""
    values = value.values if isinstance(value, Array) and value.kind is None else [value]
    return [it.name.decode() for it in values if isinstance(it, Symbol)]


class Writing:
    """The lines of one entry. What they do not say is found by reading them again."""

    def __init__(self, graph: Frame):
        self.slots = {tag.name.decode(): it for tag, it in zip(graph.tags, graph.values)}
        self.lines: list[str] = []
        others = self.strings(OTHERS)
        version = next((it for it in others if it.upper().startswith("VERSION:")), "VERSION:3.0")
        self.is_new = version.endswith("4.0")
        self.lines.append(version)
        kept = {it.partition(":")[0].partition(";")[0].upper() for it in others}
        self.write_name(kept)
        self.write_texts()
        self.write_lists()
        self.lines += [it for it in others if it != version]

    def text(self, slot: str) -> Optional[str]:
        value = self.slots.get(slot)
        return text_of(value) if isinstance(value, String) else None

    def strings(self, slot: str) -> list[str]:
        value = self.slots.get(slot)
        values = value.values if isinstance(value, Array) and value.kind is None else []
        return [text_of(it) for it in values if isinstance(it, String)]

    def write_name(self, kept: set[str]) -> None:
        """Both lines that each card has, but for such as are kept as they stood."""
        name = texts(self.slots.get("name", 0), NAME_PARTS) or {}
        full = self.text("fullName")
        if "N" not in kept:
            self.lines.append("N:" + value_of_parts(name, NAME_PARTS))
        if "FN" not in kept or full is not None:
            self.lines.append("FN:" + escaped(full_name(name) if full is None else full))

    def write_texts(self) -> None:
        organisation = {it: self.text(it) for it in ORGANISATION_PARTS if self.text(it) is not None}
        if organisation:
            self.lines.append("ORG:" + value_of_parts(organisation, ORGANISATION_PARTS).rstrip(";"))
        for line, slot in TEXTS.items():
            if slot != "fullName" and self.text(slot) is not None:
                self.lines.append(f"{line}:{escaped(self.text(slot))}")
        if symbols(self.slots.get("group", 0)):
            self.lines.append("CATEGORIES:" + ",".join(map(escaped, symbols(self.slots["group"]))))
        photo = self.slots.get("photo")
        if isinstance(photo, Large):
            kind, data = photo.kind.name.decode(), base64.b64encode(photo.data).decode()
            start = f"PHOTO:data:image/{kind};base64," if self.is_new else f"PHOTO;ENCODING=b;TYPE={kind.upper()}:"
            self.lines.append(start + data)

    def write_lists(self) -> None:
        for line, (slot, names) in LISTS.items():
            value = self.slots.get(slot)
            for it in value.values if isinstance(value, Array) else []:
                kinds = it.values[it.slot(b"kind")] if isinstance(it, Frame) and it.slot(b"kind") is not None else 0
                parts = texts(without_kind(it), names)
                if parts:
                    types = f";TYPE={','.join(symbols(kinds))}" if symbols(kinds) else ""
                    self.lines.append(f"{line}{types}:{value_of_parts(parts, names)}")


def without_kind(value: Ref) -> Ref:
    if not isinstance(value, Frame):
        return value
    kept = [(tag, it) for tag, it in zip(value.tags, value.values) if tag.name.lower() != b"kind"]
    return Frame([tag for tag, _ in kept], [it for _, it in kept])


def is_said(value: object, other: object) -> bool:
    """Whether two values are equal, but for the order of slots and the kind of ends of lines."""

    def told(it: object) -> str:
        return re.sub(r"\\r\\n|\\n", r"\\r", json.dumps(it, sort_keys=True))

    return told(value) == told(other)


def of_entry(graph: Frame) -> tuple[str, list[str]]:
    """The vCard of an entry, and the slots that it does not say."""
    lines = [it for it in Writing(graph).lines if is_writable(it) and "\n" not in it]
    text = "".join(map(folded, ["BEGIN:VCARD", *lines, "END:VCARD"]))
    form = Writer(graph).value(graph)
    slots = form.get("$frame", form.get("value", form))
    try:
        (again,) = cards(text)
        read = Reading(again).slots
    except NoValue:
        read = {}
    return text, [slot for slot, value in slots.items() if slot not in read or not is_said(value, read[slot])]


class Cards:
    """The vCards of entries, and what they do not say."""

    def __init__(self, found: tuple):
        self.entries = found
        self.left_out: list[str] = []

    def texts(self) -> Iterator[str]:
        for entry in self.entries:
            text, unsaid = of_entry(entry.graph)
            if unsaid:
                self.left_out.append(f"of the entry {entry.uid} the slots {', '.join(unsaid)}")
            yield text
