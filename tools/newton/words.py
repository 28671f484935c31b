"""The words that are typed: commands and modes with the form of what follows them, and the names in a query."""

COMMANDS = {
    "nsof": ("HEX",),
    "lit": ("LIT",),
    "time": ("T",),
    "quit": ("",),
    "format": ("U NAME SIG",),
    "mount": ("U",),
    "unmount": ("U",),
    "stores": ("",),
    "default": ("U",),
    "soup": ("U NAME",),
    "soups": ("U",),
    "drop": ("U S",),
    "index": ("U S PART..",),
    "unindex": ("U S PATH..",),
    "indexes": ("U S",),
    "tags": ("U S PATH SYMBOL..", "U S"),
    "info": ("U S LIT", "U S"),
    "add": ("U S LIT",),
    "addx": ("U S HEX",),
    "addu": ("S LIT",),
    "get": ("U S UID",),
    "getx": ("U S UID",),
    "remove": ("U S UID",),
    "set": ("U S UID PATH LIT",),
    "change": ("U S UID LIT",),
    "copy": ("U S UID U S",),
    "move": ("U S UID U S",),
    "vread": ("U S UID PATH AT LEN",),
    "vwrite": ("U S UID PATH AT HEX",),
    "alias": ("U S UID",),
    "resolve": ("LIT",),
    "query": ("U S LIT", "* S LIT"),
    "entry": ("C",),
    "next": ("C",),
    "prev": ("C",),
    "reset": ("C",),
    "end": ("C",),
    "moveby": ("C K",),
    "goto": ("C U UID",),
    "gotokey": ("C LIT",),
    "count": ("C",),
    "which": ("C",),
    "clone": ("C",),
    "close": ("C",),
    "watch": ("S LIMIT",),
    "notes": ("W",),
    "unwatch": ("W",),
    "open": ("U S UID",),
    "draft": ("W",),
    "edit": ("W PATH LIT",),
    "save": ("W",),
    "revert": ("W",),
    "discard": ("W",),
}

# The modes, and how many of their words name files.
MODES = {
    "run": "NAME..",
    "show": "",
    "pack": "",
    "gen": "SEED COUNT NAME",
    "backup": "NAME",
    "restore": "NAME",
    "check": "NAME",
}

QUERY = (
    "indexPath",
    "beginKey",
    "beginExclKey",
    "endKey",
    "endExclKey",
    "tagSpec",
    "equal",
    "all",
    "any",
    "none",
    "words",
    "text",
    "entireWords",
    "pathExpr",
)
TYPES = ("string", "int", "char", "symbol", "ascend", "descend")
LITERALS = ("nil", "true")


def form_of(command: str) -> str:
    """What is typed after a command."""
    return " or ".join(f"{command} {it}".strip() for it in COMMANDS[command])


def typed() -> list[str]:
    """All words that a line of a script may hold, for rlwrap."""
    return sorted({*COMMANDS, *QUERY, *TYPES, *LITERALS}, key=lambda it: (it.lower(), it))
