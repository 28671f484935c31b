"""Cards for the pages that are looked at: a full one, two with one soup, a damaged one, and a hostile one.

    NEWTON=PROGRAM python3 tools/tests/shows.py FOLDER

makes them, and a page of each kind, in a folder.
"""

import struct
import sys
import zlib
from pathlib import Path
from random import Random

from cards import BLOCK, blank, made_card, run, tool

WORDS = "bread milk salt street mill maker town river stone paper lamp door boat garden letter winter".split()
PEOPLE = "Ann Bea Carl Dora Emil Fay Gus Hana Ida Jon Kim Lars Mia Ned Olga Paul Quin Rosa Sam Tove".split()
TOWNS = "Kent Ely Bath Ghent Łódź Zürich Malmö Vaduz".split()
HOSTILE = [
    "<script>document.title='run'</script>",
    "</script><script>document.title='run'</script>",
    "<img src=x onerror=alert(1)>",
    "<!--<script>",
    "@@DATA@@",
    "&lt;b&gt;",
    "javascript:alert(1)",
    "'\"`${document.title='run'}",
    "\\u2028\\u2029\\u202E abc",
]


def picture(wide: int, high: int, seed: int) -> bytes:
    """A PNG: bands of colour."""
    random = Random(seed)
    colours = [bytes(random.randrange(256) for _ in range(3)) for _ in range(4)]
    rows = b"".join(b"\0" + b"".join(colours[(x + y) // 6 % 4] for x in range(wide)) for y in range(high))

    def chunk(kind: bytes, data: bytes) -> bytes:
        return struct.pack(">I", len(data)) + kind + data + struct.pack(">I", zlib.crc32(kind + data))

    head = chunk(b"IHDR", struct.pack(">IIBBBBB", wide, high, 8, 2, 0, 0, 0))
    return b"\x89PNG\r\n\x1a\n" + head + chunk(b"IDAT", zlib.compress(rows)) + chunk(b"IEND", b"")


def address_lines(random: Random, count: int, name: str, signature: int) -> list[str]:
    lines = [f"format 0 {name} {signature}", "mount 0", "soup 0 Names", "index 0 Names last:string:ascend",
             "index 0 Names town:string:ascend last:string:descend", "tags 0 Names labels business personal family",
             'info 0 Names {owner: "Ann", view: {sortedBy: \'last, columns: 3}}', "soup 0 Notes",
             "index 0 Notes title:string:ascend", "soup 0 Photos"]
    for at in range(count):
        first, last = random.choice(PEOPLE), random.choice(WORDS).capitalize() + random.choice(("son", "er", "man", ""))
        label = random.choice(("'business", "'personal", "['family, 'personal]"))
        lines.append(f"time {52_560_000 + 700 * at}")
        slots = f'first: "{first}", last: "{last}", town: "{random.choice(TOWNS)}", labels: {label}'
        lines.append(f"add 0 Names {{{slots}, born: {1920 + random.randrange(70)}}}")
        if at % 4 == 0:
            text = " ".join(random.choices(WORDS, k=random.randrange(5, 60)))
            lines.append(f'add 0 Notes {{title: "{random.choice(WORDS).capitalize()} {at}", text: "{text}"}}')
        if at % 9 == 0:
            lines.append(f'set 0 Names {at // 2} town "{random.choice(TOWNS)}"')
    for at in range(3):
        data = picture(60 + 30 * at, 40, random.randrange(99)).hex()
        lines.append(f'add 0 Photos {{title: "Picture {at}", bits: <<PNG:{data}>>, of: #1={{n: {at}, again: #1#}}}}')
    return [*lines, "remove 0 Names 3", f"add 0 Photos {{title: \"Sound\", wave: <<wave:*9000>>}}"]


def address_card(folder: Path, name: str, seed: int, count: int = 120, blocks: int = 60) -> Path:
    card = blank(folder, name, blocks)
    run(card, "\n".join([*address_lines(Random(seed), count, name.capitalize(), seed), ""]))
    return card


def damaged_card(folder: Path, name: str, seed: int) -> Path:
    """A card with two blocks of zeros, and some bits flipped."""
    card, random = made_card(folder, name, seed), Random(seed)
    data = bytearray(card.read_bytes())
    for block in (20, 51):
        data[BLOCK * block : BLOCK * block + BLOCK] = bytes(BLOCK)
    for _ in range(20):
        data[random.randrange(3 * BLOCK, len(data))] ^= 1 << random.randrange(8)
    card.write_bytes(data)
    return card


def hostile_card(folder: Path, name: str) -> Path:
    """Names and texts that would run or break a page which took them for markup."""
    card = blank(folder, name, 40)
    lines = ["format 0 \"</script><b>x\" 9", "mount 0"]
    for at, text in enumerate(it for it in HOSTILE if len(it) < 40):
        quoted = text.replace("\\", "\\\\").replace('"', '\\"')
        lines.append(f'soup 0 "{quoted}"')
    lines += ["soup 0 Texts", "index 0 Texts of:string:ascend", "tags 0 Texts t constructor __proto__"]
    for text in HOSTILE:
        quoted = text.replace('"', '\\"').replace("'\\\"", "'\\\"")
        bars = text.replace("\\", "\\\\").replace("|", "\\|")
        slots = f"of: \"{quoted}\", |{bars}|: '|{bars}|, t: '__proto__, __proto__: 1, constructor: $\""
        lines.append(f"add 0 Texts {{{slots}}}")
    picture = b"<svg onload='document.title=1'/>".hex()
    lines.append(f"add 0 Texts {{of: <<|<svg onload=1>|:{picture}>>, n: $|, m: $<}}")
    assert all(it.startswith("ok") for it in run(card, "\n".join([*lines, ""])))
    return card


def main(folder: Path) -> None:
    shown = {
        "full": [address_card(folder, "cupboard", 3)],
        "union": [address_card(folder, "internal", 4, 80), address_card(folder, "travel", 5, 60)],
        "damaged": [damaged_card(folder, "damaged", 1)],
        "hostile": [hostile_card(folder, "hostile")],
    }
    for name, cards in shown.items():
        (folder / f"{name}.html").write_bytes(tool("page", *cards).stdout)


if __name__ == "__main__":
    main(Path(sys.argv[1]))
