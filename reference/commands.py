"""The commands: the form of each, its refusals in their order, and what it changes."""

import re
from dataclasses import replace
from typing import Iterable, Iterator

import lines
from graphs import NIL, Array, Frame, Large, Ref, Walk, copied, integer, is_same_name, value_at, with_value
from literals import NoLiteral, print_literal, read_literal
from queries import Query, key_from, read_shape
from replies import Changed, Refused, of_name, of_path, of_refusal, of_spec
from stores import (
    MOST_INDEXES,
    MOST_INFO,
    MOST_SKELETON,
    MOST_SIGNATURE,
    MOST_SOUP_SIGNATURE,
    MOST_SOUPS,
    MOST_TAGS,
    Entry,
    Path,
    Soup,
    Store,
    Tags,
    entry_of,
    folded,
    paths_of,
)
from streams import Malformed, decode, encode, encode_flat
from world import FINISH, MOST_MOUNTED, START, Copy, Cursor, Watch, World

MOST_LINE, MOST_INPUT = 140_000, 16_777_216
COMMANDS = {}


def command(*forms):
    """Enters a function in the table, under its name and the forms of its words. It gives the fields of the reply."""

    def entered(body):
        COMMANDS[body.__name__.rstrip("_").encode()] = (forms, body)
        return body

    return entered


def literal_of(text: bytes) -> Ref:
    try:
        return read_literal(text)
    except NoLiteral as fault:
        raise Refused(3) from fault


def bytes_of(text: bytes) -> bytes:
    if not re.fullmatch(rb"(?:[0-9a-fA-F]{2})*", text):
        raise Refused(1)
    return bytes.fromhex(text.decode())


def stream_of(text: bytes) -> Ref:
    try:
        graph, is_compressed = decode(bytes_of(text))
    except Malformed as fault:
        raise Refused(1) from fault
    if is_compressed:
        raise Refused(2)
    return graph


def hexadecimal(data: bytes) -> str:
    return data.hex().upper()


@command(lines.hexadecimal)
def nsof(_world: World, text: bytes):
    return [hexadecimal(encode(stream_of(text)))]


@command(lines.literal)
def lit(_world: World, text: bytes):
    return [print_literal(literal_of(text))]


@command(lines.NUMBER)
def time(world: World, minute: int):
    world.minute = minute
    return []


@command()
def quit_(_world: World):
    return []


# Stores.


@command(lines.unit, lines.name, lines.SIGNATURE)
def format_(world: World, number: int, name: bytes, sig: int):
    unit = world.with_blocks(number)
    if unit.store is not None:
        raise Refused(26)
    unit.store = Store(name, sig)
    return []


@command(lines.unit)
def mount(world: World, number: int):
    unit = world.with_blocks(number)
    if unit.store is None:
        raise Refused(22)
    if len(world.mounted) == MOST_MOUNTED:
        raise Refused(23)
    if any(world.units[it].store.sig == unit.store.sig for it in world.mounted):
        raise Refused(24)
    world.mounted.add(number)
    world.default = number if world.default is None else world.default
    return [unit.store.sig, of_name(unit.store.name)]


@command(lines.unit)
def unmount(world: World, number: int):
    world.store(number)
    world.mounted.remove(number)
    if world.default == number:
        world.default = min(world.mounted, default=None)
    return []


@command()
def stores(world: World):
    found = [(number, world.units[number].store) for number in sorted(world.mounted)]
    return [", ".join(f"{number} {it.sig} {of_name(it.name)}" for number, it in found)]


@command(lines.unit)
def default(world: World, number: int):
    world.store(number)
    world.default = number
    return []


# Soups.


@command(lines.unit, lines.name)
def soup(world: World, number: int, name: bytes):
    store = world.store(number)
    if store.soup(name) is not None:
        raise Refused(31)
    if len(store.soups) == MOST_SOUPS:
        raise Refused(36)
    if store.next_soup == MOST_SOUP_SIGNATURE:
        raise Refused(35)
    new = Soup(name, store.next_soup)
    world.keep(number, replace(store, next_soup=store.next_soup + 1, soups=(*store.soups, new)))
    world.note("make", number, new)
    return [new.sig]


@command(lines.unit)
def soups(world: World, number: int):
    return [", ".join(f"{of_name(it.name)} {it.sig} {len(it.entries)}" for it in world.store(number).soups)]


@command(lines.unit, lines.name)
def drop(world: World, number: int, name: bytes):
    gone, store = world.soup(number, name), world.store(number)
    world.keep(number, replace(store, soups=tuple(it for it in store.soups if it is not gone)))
    world.note("drop", number, gone)
    return []


@command(lines.unit, lines.name, lines.several(lines.part, 4))
def index(world: World, number: int, name: bytes, spec: tuple):
    soup = world.soup(number, name)
    if any(paths_of(it) == paths_of(spec) for it in soup.specs):
        raise Refused(40)
    if any(it.kind == "real" for it in spec):
        raise Refused(43)
    if len(soup.specs) == MOST_INDEXES:
        raise Refused(36)
    world.keep(number, world.store(number).with_soup(replace(soup, specs=(*soup.specs, spec))))
    return []


@command(lines.unit, lines.name, lines.several(lines.path, 4))
def unindex(world: World, number: int, name: bytes, paths: tuple):
    soup = world.soup(number, name)
    kept = tuple(it for it in soup.specs if paths_of(it) != folded(paths))
    if len(kept) == len(soup.specs):
        raise Refused(40)
    world.keep(number, world.store(number).with_soup(replace(soup, specs=kept)))
    return []


@command(lines.unit, lines.name)
def indexes(world: World, number: int, name: bytes):
    specs = world.soup(number, name).specs
    return [", ".join(map(of_spec, specs))]


@command(lines.unit, lines.name, lines.declaration)
def tags(world: World, number: int, name: bytes, declared: Tags):
    soup = world.soup(number, name)
    if declared is None:
        return [] if soup.tags is None else [of_path(soup.tags.path), *[it.decode() for it in soup.tags.symbols]]
    if len(declared.symbols) > MOST_TAGS:
        raise Refused(36)
    world.keep(number, world.store(number).with_soup(replace(soup, tags=declared)))
    return []


@command(lines.unit, lines.name, lines.info)
def info(world: World, number: int, name: bytes, text: bytes):
    if text is None:
        found = world.soup(number, name).info
        return ["nil" if found is None else print_literal(found)]
    value = literal_of(text)
    soup = world.soup(number, name)
    frame = None if value == NIL else value
    if frame is not None and (not isinstance(frame, Frame) or Walk(frame).larges()):
        raise Refused(44)
    if frame is not None and len(encode_flat(frame)) > MOST_INFO:
        raise Refused(34)
    world.keep(number, world.store(number).with_soup(replace(soup, info=frame)))
    return []


# Entries.


def wants_frame(graph: Ref) -> None:
    if not isinstance(graph, Frame):
        raise Refused(37)


def wants_size(graph: Ref) -> None:
    if len(encode_flat(graph, is_skeleton=True)) > MOST_SKELETON:
        raise Refused(34)


def wants_id(soup: Soup) -> None:
    if soup.next_uid == MOST_SIGNATURE:
        raise Refused(35)


def added(world: World, number: int, name: bytes, graph: Ref) -> int:
    soup = world.soup(number, name)
    wants_frame(graph)
    wants_size(graph)
    wants_id(soup)
    entry = entry_of(soup.next_uid, world.minute, graph)
    world.keep(number, world.store(number).with_soup(soup.with_entry(entry)))
    world.note("add", number, soup, entry.uid)
    return entry.uid


@command(lines.unit, lines.name, lines.literal)
def add(world: World, number: int, name: bytes, text: bytes):
    return [added(world, number, name, literal_of(text))]


@command(lines.unit, lines.name, lines.hexadecimal)
def addx(world: World, number: int, name: bytes, text: bytes):
    return [added(world, number, name, stream_of(text))]


@command(lines.name, lines.literal)
def addu(world: World, name: bytes, text: bytes):
    graph = literal_of(text)
    if world.default is None:
        raise Refused(25)
    return [world.default, added(world, world.default, name, graph)]


@command(lines.unit, lines.name, lines.NUMBER)
def get(world: World, number: int, name: bytes, uid: int):
    _, entry = world.entry(number, name, uid)
    return [entry.time, print_literal(entry.graph)]


@command(lines.unit, lines.name, lines.NUMBER)
def getx(world: World, number: int, name: bytes, uid: int):
    _, entry = world.entry(number, name, uid)
    return [entry.time, hexadecimal(encode(entry.graph))]


def put(world: World, number: int, soup: Soup, entry: Entry) -> None:
    world.keep(number, world.store(number).with_soup(soup.with_entry(entry)))
    world.note("change", number, soup, entry.uid)


def edited(graph: Ref, path: Path, value: Ref) -> Ref:
    """The graph with a value put where a path leads."""
    other = with_value(graph, path, value)
    if other is None:
        raise Refused(38)
    if not Walk(other).keeps_limits():
        raise Refused(36)
    wants_size(other)
    return other


@command(lines.unit, lines.name, lines.NUMBER, lines.path, lines.literal)
def set_(world: World, number: int, name: bytes, uid: int, path: Path, text: bytes):
    value = literal_of(text)
    soup, entry = world.entry(number, name, uid)
    put(world, number, soup, entry_of(uid, world.minute, edited(entry.graph, path, value)))
    return []


@command(lines.unit, lines.name, lines.NUMBER, lines.literal)
def change(world: World, number: int, name: bytes, uid: int, text: bytes):
    graph = literal_of(text)
    soup, _ = world.entry(number, name, uid)
    wants_frame(graph)
    wants_size(graph)
    put(world, number, soup, entry_of(uid, world.minute, graph))
    return []


@command(lines.unit, lines.name, lines.NUMBER)
def remove(world: World, number: int, name: bytes, uid: int):
    soup, _ = world.entry(number, name, uid)
    world.keep(number, world.store(number).with_soup(soup.without_entry(uid)))
    world.note("remove", number, soup, uid)
    return []


def carried(world: World, source: tuple, target: tuple, is_moved: bool) -> int:
    """Adds an entry to a soup, and removes it from its own where it is moved."""
    (number, name, uid), (to, to_name) = source, target
    world.attached(number, to)
    world.store(number, to)
    world.soup(number, name)
    soup = world.soup(to, to_name)
    _, entry = world.entry(number, name, uid)
    wants_id(soup)
    new = entry._replace(uid=soup.next_uid, time=world.minute)
    store = world.store(to).with_soup(soup.with_entry(new))
    if is_moved and number == to:
        store = store.with_soup(store.soup(name).without_entry(uid))
    world.keep(to, store)
    world.note("add", to, soup, new.uid)
    if is_moved and number != to:
        remove(world, number, name, uid)
    elif is_moved:
        world.note("remove", number, store.soup(name), uid)
    return new.uid


@command(lines.unit, lines.name, lines.NUMBER, lines.unit, lines.name)
def copy(world: World, number: int, name: bytes, uid: int, to: int, to_name: bytes):
    return [carried(world, (number, name, uid), (to, to_name), False)]


@command(lines.unit, lines.name, lines.NUMBER, lines.unit, lines.name)
def move(world: World, number: int, name: bytes, uid: int, to: int, to_name: bytes):
    return [carried(world, (number, name, uid), (to, to_name), True)]


def large_at(graph: Ref, path: Path, begin: int, length: int) -> Large:
    large = value_at(graph, path)
    if not isinstance(large, Large):
        raise Refused(38)
    if begin + length > len(large.data):
        raise Refused(39)
    return large


@command(lines.unit, lines.name, lines.NUMBER, lines.path, lines.NUMBER, lines.LENGTH)
def vread(world: World, number: int, name: bytes, uid: int, path: Path, begin: int, length: int):
    _, entry = world.entry(number, name, uid)
    return [hexadecimal(large_at(entry.graph, path, begin, length).data[begin : begin + length])]


@command(lines.unit, lines.name, lines.NUMBER, lines.path, lines.NUMBER, lines.hexadecimal)
def vwrite(world: World, number: int, name: bytes, uid: int, path: Path, begin: int, text: bytes):
    data = bytes_of(text)
    soup, entry = world.entry(number, name, uid)
    graph = copied(entry.graph)
    large = large_at(graph, path, begin, len(data))
    large.data = large.data[:begin] + data + large.data[begin + len(data) :]
    put(world, number, soup, entry._replace(graph=graph))
    return []


# Aliases.


@command(lines.unit, lines.name, lines.NUMBER)
def alias(world: World, number: int, name: bytes, uid: int):
    soup, _ = world.entry(number, name, uid)
    return [f"[alias: {world.store(number).sig}, {soup.sig}, {uid}]"]


def named_by(value: Ref) -> list:
    """The store signature, soup signature and entry id of an alias."""
    is_alias = isinstance(value, Array) and value.kind is not None and is_same_name(value.kind.name, b"alias")
    numbers = [integer(it) for it in value.values] if is_alias else []
    if len(numbers) != 3 or any(it is None or it < 0 for it in numbers):
        raise Refused(41)
    return numbers


@command(lines.literal)
def resolve(world: World, text: bytes):
    sig, soup_sig, uid = named_by(literal_of(text))
    for number in world.mounted:
        store = world.store(number)
        found = [it for it in store.soups if store.sig == sig and it.sig == soup_sig and it.entry(uid)]
        if found:
            return [number, of_name(found[0].name), uid]
    return ["nil"]


# Queries and cursors.


def index_of(world: World, query: Query, paths: list) -> tuple:
    """The index of these paths, of the first soup that has one."""
    for _, _, soup in world.members(query):
        for spec in soup.specs:
            if paths_of(spec) == folded(paths):
                return spec
    raise Refused(40)


@command(lines.scope, lines.name, lines.literal)
def query(world: World, number: int, name: bytes, text: bytes):
    value = literal_of(text)
    if number is not None:
        world.soup(number, name)
    elif not any(world.store(it).soup(name) for it in world.mounted):
        raise Refused(30)
    shape = read_shape(value)
    asked = Query(None if number is None else world.store(number).sig, name, None, {}, shape)
    if shape.paths is not None:
        spec = index_of(world, asked, shape.paths)
        asked = replace(asked, spec=spec, bounds={slot: key_from(it, spec) for slot, it in shape.keys.items()})
    free = world.free(world.cursors)
    world.cursors[free] = Cursor(asked, world.next(asked, START))
    return [free]


def current(world: World, cursor: Cursor) -> list:
    if cursor.place in (START, FINISH):
        return ["nil"]
    hit = world.hit_at(cursor)
    return [hit.unit, hit.entry.uid, hit.entry.time, print_literal(hit.entry.graph)] if hit else ["deleted"]


def moved(world: World, number: int, count: int, place=None) -> list:
    """Moves a cursor so many steps, from where it is or from a place, and tells what it is on."""
    cursor = world.cursor(number)
    cursor.place = cursor.place if place is None else place
    step, last = (world.next, FINISH) if count > 0 else (world.previous, START)
    for _ in range(abs(count)):
        if cursor.place == last:
            break
        cursor.place = step(cursor.query, cursor.place)
    return current(world, cursor)


@command(lines.CURSOR)
def entry(world: World, number: int):
    return moved(world, number, 0)


@command(lines.CURSOR)
def next_(world: World, number: int):
    return moved(world, number, 1)


@command(lines.CURSOR)
def prev(world: World, number: int):
    return moved(world, number, -1)


@command(lines.CURSOR)
def reset(world: World, number: int):
    return moved(world, number, 1, START)


@command(lines.CURSOR)
def end(world: World, number: int):
    return moved(world, number, -1, FINISH)


@command(lines.CURSOR, lines.steps)
def moveby(world: World, number: int, count: int):
    return moved(world, number, count)


@command(lines.CURSOR, lines.unit, lines.NUMBER)
def goto(world: World, number: int, unit: int, uid: int):
    world.store(unit)
    cursor = world.cursor(number)
    for hit in world.hits(cursor.query):
        if (hit.unit, hit.entry.uid) == (unit, uid):
            return moved(world, number, 0, hit[:2])
    raise Refused(32)


@command(lines.CURSOR, lines.literal)
def gotokey(world: World, number: int, text: bytes):
    value = literal_of(text)
    asked = world.cursor(number).query
    key = key_from(value, asked.spec)
    # No identity stands before this one.
    return moved(world, number, 0, world.next(asked, (key, (-1, -1, -1))))


@command(lines.CURSOR)
def count(world: World, number: int):
    return [len(world.hits(world.cursor(number).query))]


@command(lines.CURSOR)
def which(world: World, number: int):
    return [{START: "begin", FINISH: "end"}.get(world.cursor(number).place, "nil")]


@command(lines.CURSOR)
def clone(world: World, number: int):
    cursor = world.cursor(number)
    free = world.free(world.cursors)
    world.cursors[free] = replace(cursor)
    return [free]


@command(lines.CURSOR)
def close(world: World, number: int):
    world.cursor(number)
    world.cursors[number] = None
    return []


# Watches.


@command(lines.name, lines.LIMIT)
def watch(world: World, name: bytes, most: int):
    number = world.free(world.watches)
    world.watches[number] = Watch(name, most)
    return [number]


@command(lines.WATCH)
def notes(world: World, number: int):
    found = world.watch(number)
    lost, told = max(0, len(found.notes) - found.most), found.notes[-found.most :]
    found.notes = []
    return [min(lost, 2**32 - 1), ", ".join(told)]


@command(lines.WATCH)
def unwatch(world: World, number: int):
    world.watch(number)
    world.watches[number] = None
    return []


# Working copies.


@command(lines.unit, lines.name, lines.NUMBER)
def open_(world: World, number: int, name: bytes, uid: int):
    soup, entry = world.entry(number, name, uid)
    free = world.free(world.copies)
    world.copies[free] = Copy((world.store(number).sig, soup.sig, uid), entry.time, entry.graph, entry.graph)
    return [free]


@command(lines.COPY)
def draft(world: World, number: int):
    return [print_literal(world.copy(number).draft)]


@command(lines.COPY, lines.path, lines.literal)
def edit(world: World, number: int, path: Path, text: bytes):
    value = literal_of(text)
    found = world.copy(number)
    found.draft = edited(found.draft, path, value)
    return []


@command(lines.COPY)
def save(world: World, number: int):
    found = world.copy(number)
    unit, soup, entry = world.living(found.alias)
    if entry.time != found.time or encode_flat(entry.graph) != encode_flat(found.base):
        raise Changed(entry.time)
    put(world, unit, soup, entry_of(entry.uid, world.minute, found.draft))
    found.time, found.base = world.minute, found.draft
    return []


@command(lines.COPY)
def revert(world: World, number: int):
    found = world.copy(number)
    _, _, entry = world.living(found.alias)
    found.time, found.base, found.draft = entry.time, entry.graph, entry.graph
    return []


@command(lines.COPY)
def discard(world: World, number: int):
    world.copy(number)
    world.copies[number] = None
    return []


# Lines.


def fields_of(world: World, line: bytes) -> list:
    if len(line) > MOST_LINE:
        raise Refused(12)
    words = lines.Words(line)
    forms, body = COMMANDS.get(words.word(), (None, None))
    if body is None:
        raise Refused(10)
    try:
        given = [form(words) for form in forms]
        words.end()
    except lines.NoForm as fault:
        raise Refused(11) from fault
    return body(world, *given)


def is_command(line: bytes) -> bool:
    """Whether a line without its line end gets a reply: others are blank, or comments."""
    return line.removesuffix(b"\r").lstrip(b" \t")[:1] not in (b"", b"%")


def asked(script: bytes) -> list[bytes]:
    """The lines of a script that get a reply each."""
    return list(filter(is_command, script.split(b"\n")))


def answer(world: World, line: bytes):
    """The reply to a line without its line end, or nothing where it is no command."""
    line = line.removesuffix(b"\r")
    if not is_command(line):
        return None
    world.events = []
    try:
        fields = [str(it) for it in fields_of(world, line)]
    except Refused as refused:
        return of_refusal(refused)
    world.tell()
    world.settle()
    return " ".join(["ok", *[it for it in fields if it]])


def run(world: World, script: Iterable[bytes]) -> Iterator[str]:
    """The replies to the lines of a script as they come, up to the one to a `quit`."""
    for line in script:
        reply = answer(world, line)
        if reply is not None:
            yield reply
        if reply == "ok" and line.split() == [b"quit"]:
            return
