"""Puts entries into a soup, all of them or none, and plays the script of a whole card."""

import sys
from time import time
from typing import Optional

from replies import of_name
from stores import is_name

from newton import script_mistakes
from newton.cards import REASONS, wants_blank
from newton.run import (
    Failed,
    Refused,
    Session,
    commands,
    is_command,
    is_quit,
    several,
    shown,
    told_status,
)
from newton.scripts import TooLong, addition
from newton.values import Given

SECONDS_BEFORE_1970 = 2_082_844_800


def minute_now() -> int:
    """The minutes since midnight of 1 January 1904, in universal time."""
    return (int(time()) + SECONDS_BEFORE_1970) // 60


def name_word(name: str) -> str:
    """A name of a soup as a word of a line."""
    if not name.isascii() or not is_name(name.encode()):
        raise Failed(f"{name!r} is no name of a soup: 1 to 39 characters from the space to the tilde")
    return of_name(name.encode())


def mount(session: Session, card: str) -> None:
    try:
        session.ask("mount 0")
    except Refused as fault:
        raise Failed(f"{card}: {REASONS.get(fault.reply, fault.reply)}; nothing was written") from fault


class Loading:
    """One run that adds entries to a soup; what it has done is undone where a command is refused."""

    def __init__(self, session: Session, soup: str):
        self.session, self.soup = session, name_word(soup)
        self.minute: Optional[int] = None
        self.undo: list[str] = []
        self.added: list[int] = []

    def find_soup(self, makes: bool) -> None:
        try:
            self.session.ask(f"indexes 0 {self.soup}")
        except Refused as fault:
            if fault.reply != "error 30 soup":
                raise
            if not makes:
                raise Failed(f"there is no soup {self.soup}; with --make it is made") from fault
            self.session.ask(f"soup 0 {self.soup}")
            self.undo.append(f"drop 0 {self.soup}")

    def add(self, entry: Given, minute: int) -> None:
        try:
            found = addition(entry.graph)
        except TooLong as fault:
            raise Failed(f"{entry.place}: no line of a script has room for this entry") from fault
        minute = minute if entry.time is None else entry.time
        if minute != self.minute:
            self.session.ask(f"time {minute}")
            self.minute = minute
        try:
            uid = int(self.session.ask(found.first(0, self.soup)))
            self.undo.append(f"remove 0 {self.soup} {uid}")
            for command in found.others(0, self.soup, uid):
                self.session.ask(command)
        except Refused as fault:
            raise Failed(f"{entry.place}: {fault}") from fault
        self.added.append(uid)

    def take_back(self) -> str:
        """Undoes what was done, and says what of it stays."""
        left = list(self.undo)
        try:
            while left:
                self.session.ask(left[-1])
                left.pop()
        except Failed as fault:
            return f"{fault}; {several(len(left), 'command', 'commands')} would take back the rest: {left[-1]} .."
        return f"{several(len(self.added), 'entry', 'entries')} before it taken back"


def add_all(card: str, soup: str, entries: list[Given], makes: bool, minute: Optional[int]) -> str:
    """Adds entries, and says what was done. Where one is refused, those before it are removed."""
    minute = minute_now() if minute is None else minute
    with Session(card) as session:
        loading = Loading(session, soup)
        mount(session, card)
        loading.find_soup(makes)
        try:
            for entry in entries:
                loading.add(entry, minute)
        except Failed as fault:
            raise Failed(f"{fault}; {loading.take_back()}") from fault
    ids = loading.added
    told = f": ids {ids[0]} to {ids[-1]}" if ids else ""
    added = several(len(ids), "entry was", "entries were")
    return f"{card}: {added} added to the soup {loading.soup}{told}"


def play(card: str, script: list[bytes]) -> str:
    """Plays the script of a store over a blank card, up to the first error."""
    wants_blank(card)
    found = next(script_mistakes.shown(script), None)
    if found:
        raise Failed(f"{card}: nothing was written, for {found}")
    count = 0
    with Session(card) as session:
        for number, line in enumerate(commands(iter(script)), 1):
            session.send(line)
            if not is_command(line):
                continue
            reply = session.reply()
            count += 1
            if not reply.startswith(b"ok"):
                command = shown(line.decode(errors="replace"))
                told = reply.decode().strip() or told_status(session.end())
                part = f"{card} holds a part now: begin anew with a blank card"
                raise Failed(f"line {number}: {command}: {told}; {part}")
            if is_quit(line, reply):
                break
    return f"{card}: {several(count, 'command was', 'commands were')} played"


def text_given(data: bytes) -> str:
    """A text in UTF-8, without the mark that some programs put before it."""
    try:
        return data.decode("utf-8-sig")
    except UnicodeDecodeError as fault:
        raise Failed(f"the byte {fault.start} is not UTF-8") from fault


def read_all(name: Optional[str]) -> bytes:
    if name in (None, "-"):
        return sys.stdin.buffer.read()
    with open(name, "rb") as file:
        return file.read()
