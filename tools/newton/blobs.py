"""Large binaries of entries as files: a file is put into a slot, and the bytes of a slot are got."""

import sys
from argparse import Namespace
from pathlib import Path
from typing import Optional

from graphs import MOST_BYTES, NIL, Binary, Frame, Large, Ref, value_at
from lines import NoForm, Words, path
from literals import of_name, print_literal
from streams import decode

from newton.loading import minute_now, mount, name_word
from newton.run import Failed, Session, several
from newton.scripts import pieces, zeros
from newton.values import Symbols


class Slot:
    """A slot of an entry on a card, in one run."""

    def __init__(self, session: Session, asked: Namespace):
        self.session, self.card = session, asked.card
        try:
            words = Words(asked.path.encode())
            self.path = path(words)
            words.end()
        except NoForm as fault:
            raise Failed(f"{asked.path}: no path, that is 1 to 8 names with points between them") from fault
        self.words = f"0 {name_word(asked.soup)} {asked.uid}"
        mount(session, asked.card)

    def value(self) -> Optional[Ref]:
        _, stream = self.session.ask(f"getx {self.words}").split(" ")
        return value_at(decode(bytes.fromhex(stream))[0], self.path)

    def set(self, large: Large) -> None:
        words = f"{self.words} {b'.'.join(self.path).decode()}"
        self.session.ask(f"time {minute_now()}")
        self.session.ask(f"set {words} {print_literal(large, zeros)}")
        for at, data in pieces(large):
            self.session.ask(f"vwrite {words} {at} {data.hex().upper()}")


def put(asked: Namespace) -> str:
    data = Path(asked.file).read_bytes()
    if len(data) > MOST_BYTES:
        raise Failed(f"{asked.file}: {len(data)} bytes, and a large binary has at most {MOST_BYTES}")
    with Session(asked.card) as session:
        slot = Slot(session, asked)
        held = slot.value()
        if held not in (None, NIL) and not asked.replace:
            raise Failed(f"{asked.path} holds a value already; with --replace it is replaced")
        kind = asked.kind or (held.kind.name.decode() if isinstance(held, Large) else "binary")
        slot.set(Large(Symbols().of(kind), data))
        now = slot.value()
        if not isinstance(now, Large) or now.data != data:
            raise Failed(f"{asked.card}: what was written is read back otherwise")
    size = several(len(data), "byte", "bytes")
    return f"{asked.card}: {size} of the class {of_name(kind.encode())} put at {asked.path}"


def get(asked: Namespace) -> Optional[str]:
    with Session(asked.card) as session:
        held = Slot(session, asked).value()
    if not isinstance(held, Binary):
        what = "nothing" if held is None else "a frame" if isinstance(held, Frame) else "no binary"
        raise Failed(f"{asked.path} holds {what}")
    if asked.file is None or asked.file == "-":
        sys.stdout.buffer.write(held.data)
        return None
    try:
        with open(asked.file, "wb" if asked.force else "xb") as file:
            file.write(held.data)
    except FileExistsError as fault:
        raise Failed(f"{asked.file} is there already; with --force it is overwritten") from fault
    size = several(len(held.data), "byte", "bytes")
    return f"{asked.file}: {size} of the class {of_name(held.kind.name)}"
