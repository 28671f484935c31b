"""Refusals, and how names and lists are printed."""

REFUSALS = {
    1: "malformed",
    2: "compressed",
    3: "literal",
    51: "backup",
    10: "command",
    11: "line",
    12: "longline",
    20: "unit",
    21: "mounted",
    22: "nostore",
    23: "stores",
    24: "signature",
    25: "notmounted",
    26: "store",
    27: "blocks",
    30: "soup",
    31: "exists",
    32: "entry",
    33: "full",
    34: "size",
    35: "ids",
    36: "limit",
    37: "notframe",
    44: "info",
    38: "path",
    39: "range",
    40: "index",
    41: "spec",
    42: "cursor",
    43: "key",
    45: "changed",
    46: "copy",
    47: "watch",
}


class Refused(Exception):
    """A command that is refused, with its number."""

    def __init__(self, number: int):
        super().__init__(number)
        self.number = number


class Changed(Refused):
    """A save over an entry that has changed, with its present time."""

    def __init__(self, time: int):
        super().__init__(45)
        self.time = time


def of_refusal(refused: Refused) -> str:
    told = f" {refused.time}" if isinstance(refused, Changed) else ""
    return f"error {refused.number} {REFUSALS[refused.number]}{told}"


def of_name(name: bytes) -> str:
    """A name of a store or soup, in quotes where it has to be."""
    text = name.decode()
    if not set(text) & set(' "\\'):
        return text
    return '"' + text.replace("\\", "\\\\").replace('"', '\\"') + '"'


def of_path(path: tuple) -> str:
    return ".".join(name.decode() for name in path)


def of_spec(spec: tuple) -> str:
    """The parts of an index, as a command takes them and a reply lists them."""
    return " ".join(f"{of_path(it.path)}:{it.kind}:{it.order}" for it in spec)
