"""The lines of a script: their words, and the forms that these have."""

import re

from scanner import Scanner
from stores import KINDS, MOST_PATH, ORDERS, Part, Tags, is_name

BLANKS = re.compile(rb"[ \t]*")
WORD = re.compile(rb"[^ \t]+")
NAME = re.compile(rb"[!#-\[\]-~]+(?![^ \t])")
QUOTED = re.compile(rb'"((?:[ !#-\[\]-~]|\\["\\])*)"(?![^ \t])')
STAR = re.compile(rb"\*(?![^ \t])")
IDENTIFIER = re.compile(rb"[A-Za-z_][A-Za-z0-9_]{0,253}")


class NoForm(Exception):
    """The words have not the form of their command."""


class Words(Scanner):
    """The words of a line, which are taken one by one."""

    fault = NoForm

    def __init__(self, line: bytes):
        super().__init__(line)
        self.found(BLANKS)

    def end(self) -> None:
        self.wants(self.left() == 0)

    def wanted(self, form: re.Pattern) -> re.Match:
        """What stands next and has a form, with the blanks after it."""
        match = self.found(form)
        self.wants(match)
        self.found(BLANKS)
        return match

    def word(self) -> bytes:
        return self.wanted(WORD)[0]

    def rest(self) -> bytes:
        return self.take(self.left()).rstrip(b" \t")


# Forms: each takes what it reads from the words.


def decimal(most: int, least: int = 0):
    def form(words: Words) -> int:
        word = words.word()
        words.wants(re.fullmatch(rb"[0-9]{1,10}", word) and least <= int(word) <= most)
        return int(word)

    return form


NUMBER, SIGNATURE, LENGTH, CURSOR = decimal(2**32 - 1), decimal(536_870_911), decimal(60_000), decimal(31)
LIMIT, WATCH, COPY = decimal(64, 1), decimal(7), decimal(15)


def unit(words: Words) -> int:
    word = words.word()
    words.wants(re.fullmatch(rb"[0-7]", word))
    return int(word)


def scope(words: Words):
    """A unit, or nothing for all of them."""
    if not words.found(STAR):
        return unit(words)
    words.found(BLANKS)
    return None


def steps(words: Words) -> int:
    word = words.word()
    words.wants(re.fullmatch(rb"-?[0-9]{1,10}", word) and -(2**31) <= int(word) < 2**31)
    return int(word)


def name(words: Words) -> bytes:
    if words.text.startswith(b'"', words.at):
        text = re.sub(rb"\\(.)", rb"\1", words.wanted(QUOTED)[1])
    else:
        text = words.wanted(NAME)[0]
    words.wants(is_name(text))
    return text


def identifiers(words: Words, text: bytes) -> tuple:
    parts = text.split(b".")
    words.wants(len(parts) <= MOST_PATH and all(IDENTIFIER.fullmatch(it) for it in parts))
    return tuple(parts)


def path(words: Words) -> tuple:
    return identifiers(words, words.word())


def part(words: Words) -> Part:
    word = words.word()
    words.wants(word.count(b":") == 2)
    text, kind, direction = word.split(b":")
    words.wants(kind.decode("latin-1") in (*KINDS, "real") and direction.decode("latin-1") in ORDERS)
    return Part(identifiers(words, text), kind.decode(), direction.decode())


def symbol(words: Words) -> bytes:
    word = words.word()
    words.wants(IDENTIFIER.fullmatch(word))
    return word


def several(form, most: int):
    def all_of(words: Words) -> tuple:
        items = [form(words)]
        while words.left():
            items.append(form(words))
        words.wants(len(items) <= most)
        return tuple(items)

    return all_of


def declaration(words: Words):
    """A declaration of tags, or nothing."""
    if words.left() == 0:
        return None
    tags = Tags(path(words), several(symbol, 140_000)(words))
    words.wants(len({it.lower() for it in tags.symbols}) == len(tags.symbols))
    return tags


def literal(words: Words) -> bytes:
    words.wants(words.left())
    return words.rest()


def info(words: Words):
    """A literal, or nothing."""
    return words.rest() if words.left() else None


def hexadecimal(words: Words) -> bytes:
    return words.rest()
