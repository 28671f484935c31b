"""Random literals and streams."""

from random import Random

from literals import NoLiteral, read_literal
from streams import encode

SLOTS = ("k", "l", "n", "m", "x", "y", "t", "q", "|a b|")
SYMBOLS = ("work", "work", "home", "Work", "play", "a", "b", "|x y|", "HOME", "c1", "top", "Left")
ALPHABETS = ("ab", "abcABC", "aß ", "xyzß", "é ñ", "日本 a", "a-b c.", "ſK", "ΣςσA", "ﬁ fi", "😀a")
INTEGERS = "0 -0 1 -3 5 536870911 -536870912".split()
IMMEDIATES = r"nil true $a $\0041 $\0020 $\FFFF &00000003 &0010006F".split()
BINARIES = "<wave:00FF> <a:> <real:3ff8000000000000> <<x:01fe>> <<Wave:>>".split()
LARGES = "<<wave:*3>> <<wave:*500>> <<wave:*501>> <<wave:*1200>>".split()
STREAMS = """
    020B01020304 0205020B010203040704546F7020 0205020703546F700B01020304 0205030B010203040701780902
    0206040703546F7007046C6566740706626F74746F6D0705726967687400FF000003FC0004000400FF00000400
    020C0703666F6F010000000100000000000000000000000041 0200FF80000002 02050209000900
""".split()


def in_brackets(values: list[str], start: str = "") -> str:
    return "[" + start + ", ".join(values) + "]"


class Values:
    """Writes literals of all forms, few of which are refused."""

    def __init__(self, random: Random):
        self.random = random
        self.labels = 0

    def one(self, *of):
        return self.random.choice(of)

    def often(self, share: float = 0.9) -> bool:
        return self.random.random() < share

    def several(self, write, most: int) -> list[str]:
        return [write() for _ in range(self.random.randint(0, most))]

    def string(self) -> str:
        units = "".join(self.random.choices(self.one(*ALPHABETS), k=self.one(0, 1, 1, 2, 3, 4, 6)))
        if self.often(0.2):
            # Keys are cut after 39 units.
            units = self.one("a", "a", "ß", "😀") * 19 + self.one("a", "a", "") * 20 + self.one("", "a", "b")
        return f'"{units}"'

    def symbol(self) -> str:
        return "'" + self.one(*SYMBOLS)

    def number(self) -> str:
        return str(self.random.randint(-3, 4))

    def character(self) -> str:
        return self.one("$a", "$b", "$A")

    def simple(self) -> str:
        given = self.one(INTEGERS, IMMEDIATES, BINARIES, LARGES)
        return self.one(self.string(), self.string(), self.symbol(), self.one(*given), self.one(*given))

    def value(self, depth: int = 0) -> str:
        if depth > 3 or self.often(0.7):
            return self.simple()
        if self.labels and self.often(0.3):
            return f"#{self.random.randint(1, self.labels)}#"
        label = ""
        if self.often(0.3):
            self.labels += 1
            label = f"#{self.labels}="
        write = self.one(self.array, self.array, self.frame, self.frame, lambda _: self.rectangle())
        return label + write(depth)

    def array(self, depth: int) -> str:
        start = self.one("", "", "", self.one(*SYMBOLS) + ": ", "pathExpr: ", "alias:")
        return in_brackets(self.several(lambda: self.value(depth + 1), 3), start)

    def frame(self, depth: int, slots: tuple = ()) -> str:
        """A frame with these slots and some others, in any order."""
        names = {it.split(":")[0].lower() for it in slots}
        more = [it for it in self.random.sample(SLOTS, self.random.randint(0, 3)) if it not in names]
        items = [*slots, *[f"{name}: {self.value(depth + 1)}" for name in more]]
        self.random.shuffle(items)
        return "{" + ", ".join(items) + "}"

    def rectangle(self) -> str:
        """A frame of four sides, most of which are small, some with another spelling or order."""
        names = ["top", "left", "bottom", "right"]
        if self.often(0.2):
            names[self.random.randrange(4)] = self.one("TOP", "Left", "bottoM", "rights", "|top |")
        if self.often(0.1):
            self.random.shuffle(names)
        items = [f"{name}: {self.one('0', '1', '7', '254', '255')}" for name in names]
        if self.often(0.1):
            items[self.random.randrange(4)] = f"{self.one('top', 'k')}: {self.one('-1', '256', 'nil', '$A')}"
        return "{" + ", ".join(items[: self.one(4, 4, 4, 4, 4, 3)]) + "}"

    def any_value(self) -> str:
        self.labels = 0
        return self.value()

    def tags(self) -> str:
        """What an entry may have at the path of its tags, and what a query may ask of them."""
        symbols = self.several(lambda: self.one(self.symbol(), self.symbol(), "1", "nil"), 3)
        return self.one(self.symbol(), in_brackets(symbols), "nil")

    def stream(self) -> str:
        """The hexadecimal digits of a stream, some of which are malformed."""
        try:
            stream = bytearray(encode(read_literal(self.any_value().encode())))
        except NoLiteral:
            return self.one(*STREAMS)
        if self.often(0.2):
            stream[self.random.randrange(len(stream))] = self.random.choice(b"\0\1\2\5\6\7\x08\x09\x0a\x0b\x0c\xff")
        return self.one(*STREAMS) if self.often(0.2) else stream.hex()
