"""Shows cards as one page for a browser, which stands alone: it loads nothing, and the cards are only read."""

import argparse
import base64
import gc
import hashlib
import html
import json
import sys
from pathlib import Path

from newton.cardmap import card_told
from newton.found import Found, find
from newton.history import Version, size_of
from newton.image import read_image
from newton.views import Card, views

from check import report
from graphs import Binary, Frame, Large, Walk
from literals import of_data, print_literal

HERE = Path(__file__).resolve().parent
SCRIPTS = ("page-literal.js", "page-search.js", "page-map.js", "page-table.js", "page.js")
SHOWN = 32  # so many bytes of a large binary are shown
MOST_PICTURE, MOST_PICTURES = 2_000_000, 8_000_000
PICTURES = {b"\x89PNG\r\n\x1a\n": "png", b"\xff\xd8\xff": "jpeg"}
MOST_CARDS = 8
MOST_FOLDED = 0x1F000  # no character from here on has a case


class Progress:
    """A bar on standard error, where that is a terminal."""

    def __init__(self, whole: int):
        self.whole, self.done = max(whole, 1), 0.0
        self.is_shown = sys.stderr.isatty()

    def add(self, share: float, what: str) -> None:
        self.done += share
        if self.is_shown:
            filled = min(30, int(30 * self.done / self.whole))
            print(f"\r[{'#' * filled:<30}] {what:<40.40}", end="", file=sys.stderr, flush=True)

    def end(self) -> None:
        if self.is_shown:
            print("\r" + " " * 74 + "\r", end="", file=sys.stderr, flush=True)


class Pictures:
    """The large binaries that are shown as pictures, within a bound."""

    def __init__(self) -> None:
        self.told: list[str] = []
        self.bytes = 0

    def of(self, data: bytes) -> int:
        """The number of a picture, or none where the bytes are none or are too many."""
        kind = next((name for start, name in PICTURES.items() if data.startswith(start)), None)
        if kind is None or len(data) > MOST_PICTURE or self.bytes + len(data) > MOST_PICTURES:
            return -1
        self.bytes += len(data)
        self.told.append(f"data:image/{kind};base64,{base64.b64encode(data).decode()}")
        return len(self.told) - 1


def cut(binary: Binary) -> str:
    """The bytes of a binary; of a large one the first, and how many there are."""
    if isinstance(binary, Large) and len(binary.data) > SHOWN:
        return f"{binary.data[:SHOWN].hex().upper()}...{len(binary.data)}"
    return of_data(binary)


def row(number: int, found: Found, version: Version, graph: Frame, pictures: Pictures) -> list:
    """A version as the page has it: card, id, minute, fate, bytes, place, literal, and what its large binaries are."""
    nodes = Walk(graph).larges() if version.larges else []
    larges = [[pictures.of(node.data), at.missing()] for node, at in zip(nodes, version.larges)]
    place = version.pages[0].place
    told = [number, version.uid, version.time, found.fate(version).value, size_of(version), place]
    return [*told, version.record.kind.value, print_literal(graph, cut), larges]


def read_card(name: str, data: bytes, progress: Progress) -> Card:
    progress.add(0.1, f"{name}: reading")
    found = find(read_image(data))
    progress.add(0.4, f"{name}: checking")
    told = report(data)
    progress.add(0.2, f"{name}: entries")
    versions = found.all()
    return Card(Path(name).name, found, told, versions, [found.graph(it) for it in versions])


def folds() -> dict[str, str]:
    """What each character folds to, where that is not the character itself."""
    folded = ((one, one.casefold()) for one in map(chr, range(MOST_FOLDED)))
    return {one: other for one, other in folded if one != other}


def data_of(cards: list[Card], progress: Progress) -> dict:
    pictures, rows = Pictures(), []
    for number, card in enumerate(cards):
        card.number_rows(len(rows))
        rows += [row(number, card.found, it, graph, pictures) for it, graph in zip(card.versions, card.graphs)]
        progress.add(0.2, f"{card.name}: tables")
    shown = views(cards)
    maps = [card_told(it) for it in cards]
    return {"cards": maps, "rows": rows, "views": shown, "pictures": pictures.told, "folds": folds()}


def hashed(text: str) -> str:
    return f"'sha256-{base64.b64encode(hashlib.sha256(text.encode()).digest()).decode()}'"


def page(data: dict) -> str:
    """The whole page. Nothing of the cards is in it but as data, which the script shows as text."""
    style = (HERE / "page.css").read_text()
    script = "\n".join((HERE / it).read_text() for it in SCRIPTS)
    policy = f"default-src 'none'; style-src {hashed(style)}; script-src {hashed(script)}; img-src data:"
    written = json.dumps(data, separators=(",", ":"), ensure_ascii=True)
    for mark in "<>&":
        written = written.replace(mark, f"\\u{ord(mark):04x}")
    parts = {
        "POLICY": html.escape(f"{policy}; base-uri 'none'; form-action 'none'"),
        "TITLE": html.escape(", ".join(it["file"] for it in data["cards"])),
        "STYLE": style,
        "SCRIPT": script,
        "DATA": written,
    }
    pieces = (HERE / "page.html").read_text().split("@@")
    return "".join(parts[it] if at % 2 else it for at, it in enumerate(pieces))


def main(words: list) -> int:
    parser = argparse.ArgumentParser(prog="page", description=__doc__)
    parser.add_argument("cards", metavar="CARD", nargs="+", help="the files of one to eight cards, in order of units")
    parser.add_argument("-o", "--output", metavar="FILE", help="write the page here, and not to standard output")
    options = parser.parse_args(words)
    if len(options.cards) > MOST_CARDS:
        parser.error("a page shows at most eight cards")
    gc.disable()  # what is made is kept until the end
    progress = Progress(len(options.cards))
    try:
        cards = [read_card(it, Path(it).read_bytes(), progress) for it in options.cards]
        written = page(data_of(cards, progress))
        if options.output:
            Path(options.output).write_text(written, encoding="utf-8")
        else:
            sys.stdout.reconfigure(encoding="utf-8")
            sys.stdout.write(written)
    except OSError as fault:
        print(f"page: {fault.filename}: {fault.strerror}", file=sys.stderr)
        return 2
    finally:
        progress.end()
    return 0
