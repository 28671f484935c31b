"""Random scripts that know the world they are for, so that most of their commands say something."""

from random import Random

from commands import answer
from graphs import Large, String, Walk, value_at
from literals import IDENTIFIER, print_literal
from replies import of_name, of_path
from stores import Entry
from values import Values, in_brackets
from world import World

SOUPS = (b"S", b"N", b"To Do", b"s", b'q"\\')
COMMON_PATHS = ("k", "l", "n.x")
PATHS = (*COMMON_PATHS, "K", "n", "m", "n.y.z", "labels", "q.x", "N.X")
KINDS = ("string", "string", "string", "int", "int", "symbol", "symbol", "char", "real")
DECLARATIONS = ("", "labels work home", "labels play", "labels a b C1", "k work a", "k a A")
BAD_LINES = (
    *("", " ", "% x", "frob", "get 0", "quit now", "add 0 S", "add 0 S {", "\tstores\t", "lit [1 2]"),
    *("lit {a:1,A:2}", "lit #1=5", "nsof", "vread 0 S 0 v 0 60001", "mount  0 ", "get 0 S 1 2"),
)
# How often a command is written beside the others, and what stands after its word: methods of the writer.
COMMANDS = {
    "add": (12, "soup entry"),
    "addu": (3, "name entry"),
    "addx": (2, "soup stream"),
    "get": (3, "place"),
    "getx": (1, "place"),
    "set": (8, "place path set_value"),
    "change": (4, "place entry"),
    "remove": (4, "place"),
    "copy": (3, "place soup"),
    "move": (5, "place soup"),
    "vread": (2, "range length"),
    "vwrite": (3, "range bytes"),
    "alias": (1, "place"),
    "resolve": (1, "named_alias"),
    "index": (3, "soup spec"),
    "unindex": (1, "soup index_paths"),
    "indexes": (1, "soup"),
    "tags": (2, "soup declaration"),
    "info": (3, "soup info"),
    "query": (5, "query"),
    "entry": (3, "cursor"),
    "next": (10, "cursor"),
    "prev": (8, "cursor"),
    "reset": (2, "cursor"),
    "end": (2, "cursor"),
    "moveby": (3, "cursor number"),
    "goto": (3, "goal"),
    "gotokey": (4, "key_goal"),
    "count": (4, "cursor"),
    "which": (2, "cursor"),
    "clone": (1, "cursor"),
    "close": (1, "cursor"),
    "watch": (2, "name limit"),
    "notes": (4, "watch"),
    "unwatch": (1, "watch"),
    "open": (4, "place"),
    "draft": (2, "copy"),
    "edit": (6, "copy path set_value"),
    "save": (6, "copy"),
    "revert": (2, "copy"),
    "discard": (2, "copy"),
    "time": (2, "minute"),
    "format": (1, "unit label"),
    "mount": (3, "any_unit"),
    "unmount": (1, "unit"),
    "stores": (1, ""),
    "default": (1, "unit"),
    "soup": (2, "unit soup_name"),
    "soups": (2, "unit"),
    "drop": (1, "soup"),
    "lit": (2, "any_value"),
    "nsof": (2, "stream"),
}
WORDS = [word for word, (weight, _) in COMMANDS.items() for _ in range(weight)]


class Writer(Values):
    """Writes the lines of one script. What a line speaks of is mostly there."""

    def __init__(self, random: Random, world: World, units: int):
        super().__init__(random)
        self.world, self.units = world, units
        # The length of the large binary that the last range was of.
        self.left = 0

    # What is there.

    def soups(self) -> list:
        mounted = sorted(self.world.mounted)
        return [(number, soup) for number in mounted for soup in self.world.units[number].store.soups]

    def specs(self) -> list:
        return [(number, soup, spec) for number, soup in self.soups() for spec in soup.specs]

    def entries(self) -> list:
        return [(number, soup, entry) for number, soup in self.soups() for entry in soup.entries]

    # Units, soups and entries.

    def any_unit(self) -> str:
        return str(self.random.randrange(self.units))

    def unit(self) -> str:
        mounted = sorted(self.world.mounted)
        return str(self.one(*mounted) if mounted and self.often() else self.random.randint(0, self.units))

    def label(self) -> str:
        return f"{self.one('Card', chr(34) + 'My Card' + chr(34))} {self.random.randrange(12)}"

    def soup_name(self) -> str:
        return of_name(self.one(*SOUPS))

    def name(self) -> str:
        soups = self.soups()
        return of_name(self.one(*soups)[1].name) if soups and self.often() else self.soup_name()

    def soup(self) -> str:
        soups = self.soups()
        if not soups or not self.often():
            return f"{self.unit()} {self.soup_name()}"
        number, soup = self.one(*soups)
        return f"{number} {of_name(soup.name)}"

    def place_among(self, entries: list) -> tuple[str, Entry]:
        """Unit, soup and id of an entry, and the entry where it is there."""
        if not entries or not self.often():
            return f"{self.soup()} {self.random.randrange(12)}", None
        number, soup, entry = self.one(*entries)
        return f"{number} {of_name(soup.name)} {entry.uid}", entry

    def place(self) -> str:
        return self.place_among(self.entries())[0]

    # Values of entries.

    def typed(self, kind: str) -> str:
        return {"string": self.string, "int": self.number, "char": self.character, "symbol": self.symbol}[kind]()

    def key(self) -> str:
        """A value that an entry has at the path of an index, or any."""
        values = [value_at(it.graph, spec[0].path) for _, soup, spec in self.specs() for it in soup.entries]
        known = [print_literal(it) for it in values if it is not None]
        known = [it for it in known if len(it) < 100 and "#" not in it]
        if known and self.often(0.5):
            return self.one(*known)
        return self.one(self.typed(self.one(*KINDS[:-1])), self.string(), '"a"', '"b"', "nil")

    def fitting(self, path: str) -> str:
        """A value for a path, mostly of the kind of an index of it."""
        parts = [part for _, _, spec in self.specs() for part in spec if of_path(part.path).lower() == path]
        return self.typed(self.one(*parts).kind) if parts and self.often(0.8) else self.key()

    def entry(self) -> str:
        self.labels = 0
        if self.often(0.03):
            return self.value()
        slots = [
            (0.8, f"{self.one('k', 'K')}: {self.fitting('k')}"),
            (0.7, f"l: {self.fitting('l')}"),
            (0.6, f"n: {{x: {self.fitting('n.x')}, y: {{z: {self.fitting('n.y.z')}}}}}"),
            (0.5, f"labels: {self.tags()}"),
            (0.3, f"t: {self.string()}"),
            (0.1, f"v: <<wave:*{self.one(1, 500, 501, 1200)}>>"),
        ]
        return self.frame(0, tuple(slot for share, slot in slots if self.often(share)))

    def set_value(self) -> str:
        return self.key() if self.often(0.7) else self.any_value()

    # Ranges of large binaries.

    def range(self) -> str:
        """The place and the path of a large binary, and where a range of it begins."""
        place, entry = self.place_among([it for it in self.entries() if Walk(it[2].graph).larges()])
        slots = zip(entry.graph.tags, entry.graph.values) if entry else []
        larges = {tag.name.decode(): it for tag, it in slots if isinstance(it, Large)}
        paths = [it for it in larges if IDENTIFIER.fullmatch(it)]
        path = self.one(*paths) if paths else self.one("k", "m", "v")
        length = len(larges[path].data) if paths else 1200
        begin = self.one(0, 1, 499, length, max(0, length - 1), length // 2)
        self.left = max(0, length - begin)
        return f"{place} {path} {begin}"

    def length(self) -> str:
        return str(self.one(0, 1, 2, self.left, self.left, 600))

    def bytes(self) -> str:
        return self.one("", "41", "4142", "AB" * self.left, "00" * 502, "4g", "4")

    # Indexes and tags.

    def path(self) -> str:
        return self.one(*COMMON_PATHS) if self.often(0.7) else self.one(*PATHS)

    def part(self) -> str:
        return f"{self.path()}:{self.one(*KINDS)}:{self.one('ascend', 'ascend', 'descend')}"

    def spec(self) -> str:
        return " ".join(self.part() for _ in range(self.one(1, 1, 2, 3)))

    def index_paths(self) -> str:
        specs = self.specs()
        return " ".join(of_path(it.path) for it in self.one(*specs)[2]) if specs and self.often(0.8) else self.path()

    def declaration(self) -> str:
        return self.one(*DECLARATIONS)

    # Queries and cursors.

    def info(self) -> str:
        """An info frame, mostly, or nil, or nothing."""
        return self.one("", "nil", self.frame(0, (f"ver: {self.one(1, 2)}",)), self.entry(), self.any_value())

    def bound(self, spec: tuple) -> str:
        """A key value for an index."""
        values = [self.typed(it.kind) for it in spec] if self.often() else [self.key() for _ in spec]
        if len(spec) == 1:
            return values[0]
        given = [values[0], *[self.one(it, it, "nil") for it in values[1:]]]
        return in_brackets(given[: self.random.randint(1, len(spec))])

    def sought(self) -> str:
        """A piece of a string of an entry, or any string."""
        found = [it for _, _, entry in self.entries() for it in Walk(entry.graph).nodes if isinstance(it, String)]
        units = self.one(*found).units if found else []
        if not units or self.often(0.2):
            return self.string()
        begin = self.random.randrange(len(units))
        return print_literal(String(units[begin : begin + self.random.randint(1, 4)]))

    def index_slots(self, spec: tuple) -> list[str]:
        paths = [in_brackets(["'" + name.decode() for name in it.path], "pathExpr: ") for it in spec]
        slots = [f"indexPath: {paths[0] if len(paths) == 1 else in_brackets(paths)}"]
        for names in (("beginKey", "beginExclKey"), ("endKey", "endExclKey")):
            slots += [f"{self.one(*names)}: {self.bound(spec)}"] if self.often(0.3) else []
        return slots

    def other_slots(self) -> list[str]:
        tags = [f"{name}: {self.tags()}" for name in ("equal", "all", "any", "none") if self.often(0.35)]
        texts = self.one(self.sought(), self.sought(), in_brackets([self.sought(), self.sought()]))
        slots = [
            (0.2, "tagSpec: {" + ", ".join(tags) + "}"),
            (0.2, f"{self.one('words', 'text')}: {texts}"),
            (0.1, f"entireWords: {self.one('true', 'true', 'nil', '1')}"),
            (0.03, self.one("validTest: 1", "foo: nil", "beginKey: 1")),
        ]
        return [slot for share, slot in slots if self.often(share)]

    def query(self) -> str:
        """The soups, mostly such as have an index that is asked for, and the frame."""
        soups = f"* {self.name()}" if self.often(0.6) else self.soup()
        specs, slots = self.specs(), self.other_slots()
        if specs and self.often(0.8):
            number, soup, spec = self.one(*specs)
            slots += self.index_slots(spec)
            soups = f"{self.one('*', '*', number)} {of_name(soup.name)}" if self.often() else soups
        return f"{soups} {{{', '.join(slots)}}}"

    def cursor(self) -> str:
        return self.among(self.world.cursors)

    def goal(self) -> str:
        """A cursor, and the unit and id of an entry, mostly of one that it finds."""
        number = self.cursor()
        cursor = self.world.cursors[int(number)]
        hits = self.world.hits(cursor.query) if cursor else []
        if not hits or not self.often(0.7):
            return f"{number} {self.unit()} {self.random.randrange(12)}"
        hit = self.one(*hits)
        return f"{number} {hit.unit} {hit.entry.uid}"

    def key_goal(self) -> str:
        """A cursor, and a key, mostly one of its index."""
        indexed = [at for at, it in enumerate(self.world.cursors) if it and it.query.spec]
        if not indexed or not self.often(0.8):
            return f"{self.cursor()} {self.key()}"
        number = self.one(*indexed)
        return f"{number} {self.bound(self.world.cursors[number].query.spec)}"

    def named_alias(self) -> str:
        entries = self.entries()
        if not entries or not self.often(0.7):
            return self.one(
                "[alias: 7, 0, 1]", "[Alias: 1, 0, 0]", "[1, 2, 3]", "[alias: -1, 0, 0]", "5", "[alias: 1, 2]"
            )
        number, soup, entry = self.one(*entries)
        return f"[alias: {self.world.units[number].store.sig}, {soup.sig}, {entry.uid}]"

    # Watches and working copies.

    def limit(self) -> str:
        return str(self.one(1, 1, 2, 3, 8, 64, 0, 65))

    def among(self, places: list) -> str:
        """The number of a place, mostly of one where something is."""
        taken = [at for at, it in enumerate(places) if it]
        return str(self.one(*taken) if taken and self.often() else self.random.randrange(len(places)))

    def watch(self) -> str:
        return self.among(self.world.watches)

    def copy(self) -> str:
        return self.among(self.world.copies)

    # Lines.

    def minute(self) -> str:
        return str(self.random.randrange(1000))

    def line(self) -> str:
        if self.often(0.01):
            return self.one(*BAD_LINES)
        word = self.one(*WORDS)
        return " ".join([word, *[getattr(self, it)() for it in COMMANDS[word][1].split()]])

    def first_lines(self) -> list[str]:
        """Stores on all units, soups in them, and indexes that most soups of one name share."""
        lines = []
        for number in range(self.units):
            names = [of_name(it) for it in SOUPS[: self.random.randint(1, 3)]]
            lines += [f"format {number} {self.label()}", f"mount {number}", *[f"soup {number} {it}" for it in names]]
            lines += [f"tags {number} {it} labels work home" for it in names if self.often(0.5)]
        for name in SOUPS[:2]:
            for spec in (self.spec(), self.spec()):
                lines += [f"index {at} {of_name(name)} {spec}" for at in range(self.units) if self.often()]
        return lines


def written(random: Random, world: World, units: int, count: int) -> tuple[list[bytes], list[str]]:
    """A script of so many lines and the replies to it; the world is then the one after it."""
    writer = Writer(random, world, units)
    script, replies = [], []
    begin = [lambda line=line: line for line in writer.first_lines()]
    begin += [lambda: f"add {writer.soup()} {writer.entry()}"] * (4 * units)
    for write in begin + [writer.line] * max(0, count - len(begin)):
        line = write().encode()
        reply = answer(world, line)
        script.append(line)
        replies += [] if reply is None else [reply]
    return script, replies
