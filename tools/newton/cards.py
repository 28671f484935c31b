"""Cards as the tools meet them: the store on one, and whether a file is fit to be written to."""

from pathlib import Path
from typing import Optional

from backups import store_of_backup
from commands import MOST_INPUT
from images import BLOCK
from stores import LEAST_BLOCKS, MOST_BLOCKS, Soup, Store
from streams import Malformed, decode

from newton.run import Failed, output

STREAM = b"\x02"
REASONS = {
    "error 20 unit": "it can't be read and written, or another run has it",
    "error 22 nostore": "it holds no store that can be read (`newton check` tells what is damaged)",
    "error 27 blocks": "a card has 13 to 4,099 whole blocks of 4,096 bytes",
}


def store_of(name: str) -> Store:
    """The store of a card, which is only read, or of a backup in a file."""
    path = Path(name)
    if not path.is_file():
        raise Failed(f"{name}: there is no such file")
    with path.open("rb") as file:
        kept = file.read(MOST_INPUT)
    if kept[:1] == STREAM:
        # A card may begin so, where its first vote is lost.
        store = store_of_stream(kept)
        if store is not None or not is_whole_blocks(path):
            return wanted(store, name)
    stream = output("backup", path)
    if stream.startswith(b"e"):
        reply = stream.decode().strip()
        raise Failed(f"{name}: {REASONS.get(reply, reply)}")
    return wanted(store_of_stream(stream), name)


def store_of_stream(stream: bytes) -> Optional[Store]:
    try:
        graph, is_compressed = decode(stream)
    except Malformed:
        return None
    return None if is_compressed else store_of_backup(graph)


def wanted(store: Optional[Store], name: str) -> Store:
    if store is None:
        raise Failed(f"{name}: neither a card nor the backup of one")
    return store


def soup_of(store: Store, name: str) -> Soup:
    soup = store.soup(name.encode())
    if soup is None:
        known = ", ".join(it.name.decode() for it in store.soups) or "none"
        raise Failed(f"the store {store.name.decode()} has no soup {name}: it has {known}")
    return soup


def is_whole_blocks(path: Path) -> bool:
    size = path.stat().st_size
    return size % BLOCK == 0 and LEAST_BLOCKS <= size // BLOCK <= MOST_BLOCKS


def wants_blank(name: str) -> None:
    """Refuses a file that is not a card of equal bytes, 00 or FF: `format` would write over what it holds."""
    path = Path(name)
    if not path.is_file():
        raise Failed(f"{name}: there is no such file; `head -c 53248 /dev/zero > {name}` makes one")
    if not is_whole_blocks(path):
        raise Failed(f"{name}: {REASONS['error 27 blocks']}")
    data = path.read_bytes()
    if data.strip(data[:1]) or data[0] not in (0x00, 0xFF):
        raise Failed(f"{name}: not blank, and nothing was written: it may hold what nobody has seen")
