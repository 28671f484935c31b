"""The deepest and the largest that the program takes, and streams of many symbols."""

import struct
from typing import Callable

from commands import MOST_INPUT
from graphs import Frame, Large, String, Symbol
from images import BLOCK, HEADER
from layouts import BLANK, record
from stores import MOST_BLOCKS, ORDERS, Part, Soup, Store, capacity, directory
from streams import encode_flat, pages

DEEPEST = 200
SLOTS = 65_535
LONG = b"\xff"

Input = tuple[list, bytes, list]


def count(number: int) -> bytes:
    return bytes([number]) if number < 255 else LONG + number.to_bytes(4, "big")


# Nests.


def deep_stream(form: bytes) -> bytes:
    """So many arrays or frames in each other."""
    if form == b"[":
        return b"\x02" + b"\x05\x01" * DEEPEST + b"\x0a"
    if form == b"[c:":
        return b"\x02\x04\x01\x07\x01c" + b"\x04\x01\x09\x01" * (DEEPEST - 1) + b"\x0a"
    return b"\x02\x06\x01\x07\x01a" + b"\x06\x01\x09\x01" * (DEEPEST - 1) + b"\x0a"


def deep_literal(form: bytes, end: bytes, inner: bytes = b"nil") -> bytes:
    return form * DEEPEST + inner + end * DEEPEST


def deep_script(has_literals: bool) -> bytes:
    """The deepest entry in every command that walks an entry; without literals it comes as a stream alone."""
    frames, stream = deep_literal(b"{a:", b"}", b'"x"'), deep_stream(b"{a:").hex().encode()
    lines = [b"format 0 C 1", b"mount 0", b"soup 0 S", b"soup 0 T", b"index 0 S a.a:string:ascend", b"tags 0 S a.a b"]
    lines += [b"addx 0 S " + stream, b"get 0 S 0", b"getx 0 S 0", b"set 0 S 0 b 1", b"set 0 S 0 a.a.a.a.a.a.a.b 5"]
    lines += [b"copy 0 S 0 0 T", b"move 0 S 0 0 T", b'query 0 T {text: "x"}', b"next 0", b"entry 0", b"count 0"]
    lines += [b'query 0 T {words: ["x", "y"]}', b"nsof " + stream, b"unmount 0", b"mount 0"]
    lines += [b"get 0 T 0", b"getx 0 T 0"]
    if has_literals:
        lines += [b"lit " + frames, b"add 0 S " + frames, b"change 0 S 1 " + frames, b"query 0 S " + frames]
        lines += [b"set 0 S 1 b " + deep_literal(b"[", b"]")[1:-1], b"resolve " + frames, b"gotokey 0 " + frames]
    return b"\n".join([*lines, b""])


DEPTHS: list[tuple[str, list, bytes, tuple]] = [
    ("show, 200 arrays", ["show"], deep_stream(b"["), ()),
    ("show, 200 arrays with a class", ["show"], deep_stream(b"[c:"), ()),
    ("show, 200 frames", ["show"], deep_stream(b"{a:"), ()),
    ("pack, 200 arrays", ["pack"], deep_literal(b"[", b"]"), ()),
    ("pack, 200 arrays with a class", ["pack"], deep_literal(b"[c:", b"]"), ()),
    ("pack, 200 frames", ["pack"], deep_literal(b"{a:", b"}"), ()),
    ("run, an entry of 200 frames in every command", ["run"], deep_script(False), (20,)),
    ("run, the same with literals", ["run"], deep_script(True), (20,)),
]


# Large inputs.


def array(values: list[bytes]) -> bytes:
    return b"\x05" + count(len(values)) + b"".join(values)


def shown(root: bytes) -> Callable[[], Input]:
    return lambda: (["show"], b"\x02" + root, [])


def packed(text: bytes) -> Callable[[], Input]:
    return lambda: (["pack"], text, [])


def million(tag: bytes) -> bytes:
    size = 1_000_000
    return b"\x08" + count(size) + bytes(size) if tag == b"s" else b"\x03" + count(size) + b"\x09\x01" + bytes(size)


def binaries() -> Input:
    first = b"\x03" + count(1_000_000) + b"\x07\x01c" + bytes(1_000_000)
    return ["show"], b"\x02" + array([first] + [b"\x03" + count(1_000_000) + b"\x09\x02" + bytes(1_000_000)] * 15), []


def references() -> Input:
    """As many slots as a stream has room for, each of them a reference to the root."""
    one = array([b"\x09\x00"] * SLOTS)
    return ["show"], b"\x02" + array([one] * ((MOST_INPUT - 8) // len(one))), []


def immediates() -> Input:
    text = b"[" + b",".join([b"1"] * SLOTS) + b"]"
    return ["pack"], b"[" + b",".join([text] * ((MOST_INPUT - 2) // (len(text) + 1))) + b"]", []


def labels() -> Input:
    return ["pack"], b"[" + b",".join(b'#%d=""' % it for it in range(SLOTS - 1)) + b"]", []


def symbols() -> Input:
    return ["pack"], b"[" + b",".join(b"'n%d" % it for it in range(SLOTS - 1)) + b"]", []


def tags() -> Input:
    return ["pack"], b"{" + b",".join(b"n%d:1" % it for it in range(SLOTS - 1)) + b"}", []


def zeros() -> Input:
    return ["pack"], b"[" + b",".join([b"<<w:*1000000>>"] * 16) + b"]", []


# Images.


def image(records: bytes) -> bytes:
    size = BLOCK * ((MOST_BLOCKS - 3) // 2)
    heads = (b"\x00" + BLANK * (BLOCK - 1)) * 3
    return (heads + (HEADER + records).ljust(size, BLANK)[:size]).ljust(BLOCK * MOST_BLOCKS, BLANK)


def mounted(records: Callable[[], bytes], more: bytes = b"") -> Callable[[], Input]:
    return lambda: (["run"], b"mount 0\n" + more, [image(records())])


def whole(objects: dict[int, bytes]) -> bytes:
    """One record with all pages of some objects."""
    found = []
    for number, data in objects.items():
        for part in range(pages(len(data))):
            page = struct.pack(">III", number, part, len(data)) + data[500 * part : 500 * part + 500]
            found.append(page.ljust(512, b"\x00"))
    return record(dict(enumerate(found)), [])


def room() -> int:
    return BLOCK * ((MOST_BLOCKS - 3) // 2) - len(HEADER)


def fresh() -> bytes:
    return whole({0: directory(Store(b"C", 1))})


def entries(specs: tuple, graph_of: Callable[[int], Frame]) -> bytes:
    """As many entries of one page each as a store can have."""
    most = capacity(MOST_BLOCKS)
    store = Store(b"C", 1, 1, (Soup(b"S", 0, most, specs),))
    count = most - pages(len(directory(store)))
    records = {2 * uid + 1: struct.pack(">HHII", 0, 0, uid, 0) + encode_flat(graph_of(uid)) for uid in range(count)}
    return whole({0: directory(store), **records})


def plain_entries() -> bytes:
    return entries((), lambda _: Frame([], []))


def specs_of_four(names: list[bytes], kind: str) -> tuple:
    """Sixteen indexes of four parts."""
    paths = [(one, two, names[0], three) for one in names for two in names for three in names][:16]
    return tuple(tuple(Part((it,), kind, ORDERS[0]) for it in path) for path in paths)


def indexed_entries() -> bytes:
    """Entries in 16 indexes, with keys that fold to three times their length."""
    string, names = String([0x0390] * 39), [b"a", b"b", b"c"]
    return entries(specs_of_four(names, "string"), lambda _: Frame([Symbol(it) for it in names], [string] * 3))


def named_entries() -> bytes:
    """Entries in 16 indexes of symbols, each key four times the longest name."""
    value, names = Symbol(b"x" * 254), [b"a", b"b", b"c"]
    return entries(specs_of_four(names, "symbol"), lambda _: Frame([Symbol(it) for it in names], [value] * 3))


def falling_entries() -> bytes:
    """Entries in 16 indexes, each before all that were read until then."""
    names = [b"a", b"b", b"c"]
    tags = [Symbol(it) for it in names]
    return entries(specs_of_four(names, "int"), lambda uid: Frame(tags, [4 * (20_000 - uid)] * 3))


def full_entries() -> bytes:
    """Entries with as many nodes as a text of 64,000 bytes has room for."""
    text = b"\x02\x06\x01\x07\x01a" + array([b"\x05\x00"] * 31_900)
    each = pages(12 + len(text))
    number = capacity(MOST_BLOCKS) // each - 1
    store = Store(b"C", 1, 1, (Soup(b"S", 0, number),))
    records = {2 * uid + 1: struct.pack(">HHII", 0, 0, uid, 0) + text for uid in range(number)}
    return whole({0: directory(store), **records})


def large_binaries() -> bytes:
    """Entries that name a large binary of no bytes each."""
    graph = encode_flat(Frame([Symbol(b"v")], [Large(Symbol(b"w"), b"")]))
    number = capacity(MOST_BLOCKS) // 2 - 1
    store = Store(b"C", 1, 1, (Soup(b"S", 0, number),))
    objects = {0: directory(store)}
    for uid in range(number):
        objects[2 * uid + 1] = struct.pack(">HHII", 0, 1, uid, 0) + graph + struct.pack(">III", 2, 2 * uid + 2, 0)
        objects[2 * uid + 2] = b""
    return whole(objects)


def empty_records() -> bytes:
    """As many records as there is room for, after the one of a fresh store."""
    first, empty = fresh(), record({}, [])
    return first + empty * ((room() - len(first)) // len(empty))


def deletes() -> bytes:
    """Records that each take away as many pages as they can, none of which is there."""
    first, away = fresh(), record({}, list(range(1, 65_536)))
    return first + away * ((room() - len(first)) // len(away))


def put_again() -> bytes:
    """Records that each put the one page of a fresh store again."""
    first = fresh()
    return first * (room() // len(first))


def one_object() -> bytes:
    """Pages that are all parts of one large binary, which is longer than one may be."""
    most = room() // 516 - 2
    parts = [struct.pack(">III", 2, part, 500 * most).ljust(512, b"\x00") for part in range(most)]
    first = struct.pack(">III", 0, 0, 9) + directory(Store(b"C", 1))
    return record(dict(enumerate([first.ljust(512, b"\x00"), *parts])), [])


def repeated_parts() -> bytes:
    """Pages that are all the same part of one object."""
    page = struct.pack(">III", 1, 0, 12).ljust(512, b"\x00")
    return record({it: page for it in range(room() // 516 - 1)}, [])


CASES: list[tuple[str, Callable[[], Input]]] = [
    ("show, 65,534 empty arrays", shown(array([b"\x05\x00"] * (SLOTS - 1)))),
    ("show, 65,534 strings of 252 bytes", shown(array([b"\x08\xfc" + bytes(252)] * (SLOTS - 1)))),
    ("show, 16 binaries of 1,000,000 bytes", binaries),
    ("show, one string of 1,000,000 bytes", shown(million(b"s"))),
    ("show, 8.3 million references", references),
    ("pack, 8.3 million integers", immediates),
    ("pack, 65,534 labels", labels),
    ("pack, 65,534 symbols", symbols),
    ("pack, 65,534 tags", tags),
    ("pack, 16 large binaries of zeros", zeros),
    ("show, 16 MiB of nil after the object", shown(b"\x0a" * (MOST_INPUT - 1))),
    ("pack, 16 MiB of brackets", packed(b"[" * MOST_INPUT)),
    ("pack, 16 MiB of blanks", packed(b" " * MOST_INPUT)),
    ("run, 16 MiB of line ends", lambda: (["run"], b"\n" * MOST_INPUT, [])),
    ("run, 16 MiB of unknown commands", lambda: (["run"], b"x\n" * (MOST_INPUT // 2), [])),
    ("run, one line of 16 MiB", lambda: (["run"], b"x" * MOST_INPUT, [])),
    ("mount, a fresh store", mounted(fresh)),
    ("mount, empty records", mounted(empty_records)),
    ("mount, records of 65,535 deletes", mounted(deletes)),
    ("mount, the same page put again and again", mounted(put_again)),
    ("mount, entries of a page each", mounted(plain_entries)),
    ("mount, the same with 16 indexes of the longest keys", mounted(indexed_entries)),
    ("mount, the same with 16 indexes of the longest names", mounted(named_entries)),
    ("mount, the same with 16 indexes in falling order", mounted(falling_entries)),
    ("mount, entries of 31,900 nodes each", mounted(full_entries)),
    ("mount, entries with a large binary each", mounted(large_binaries)),
    ("mount, an object of all pages", mounted(one_object)),
    ("mount, the same part again and again", mounted(repeated_parts)),
]


# Symbols.


def other_names(number: int) -> list[bytes]:
    return [b"n%08d" % it for it in range(number)]


def spelt(names: list[bytes]) -> list[bytes]:
    return [b"\x07" + bytes([len(it)]) + it for it in names]


def frame_of_names(names: list[bytes]) -> bytes:
    return b"\x02\x06" + count(len(names)) + b"".join(spelt(names)) + b"\x0a" * len(names)


def entries_of_names(names: list[bytes]) -> bytes:
    """As many entries as a store has room for, each with these symbols."""
    text = b"\x02\x06\x01\x07\x01a" + array(spelt(names))
    number = capacity(MOST_BLOCKS) // pages(12 + len(text)) - 1
    store = Store(b"C", 1, 1, (Soup(b"S", 0, number),))
    records = {2 * uid + 1: struct.pack(">HHII", 0, 0, uid, 0) + text for uid in range(number)}
    return whole({0: directory(store), **records})


def inputs_of_names(names: list[bytes]) -> list[tuple[str, list, bytes, list]]:
    """Inputs with as many symbols as have room: a graph has them and its container, a line or an entry fewer."""
    names = names[: SLOTS - 1]
    on_line, in_entry = names[:6_300], names[:5_800]
    line = b"nsof 02" + array(spelt(on_line)).hex().encode() + b"\n"
    literal = b"[" + b",".join(b"'" + it for it in names) + b"]"
    return [
        (f"show, an array of {len(names)}", ["show"], b"\x02" + array(spelt(names)), []),
        (f"show, a frame of {len(names)}", ["show"], frame_of_names(names), []),
        (f"pack, an array of {len(names)}", ["pack"], literal, []),
        (f"run, one line of {len(on_line)}", ["run"], line, []),
        (f"mount, entries of {len(in_entry)}", ["run"], b"mount 0\n", [image(entries_of_names(in_entry))]),
    ]
