"""Where the lines of a script have not the form of their command, or hold no literal or no stream."""

from typing import Iterable, Iterator, Optional

import lines
from commands import COMMANDS, MOST_LINE

from newton import literal_mistakes, stream_mistakes
from newton.mistakes import Mistake, in_text
from newton.run import commands, is_command
from newton.words import form_of


def before(line: bytes, place: int) -> int:
    """How many characters of a line stand before a byte."""
    return len(line[:place].decode(errors="replace"))


def in_words(line: bytes) -> Optional[Mistake]:
    """The mistake of a line, if there is one. Places count characters."""
    if len(line) > MOST_LINE:
        return Mistake(before(line, MOST_LINE), f"the line has more than {MOST_LINE} bytes (error 12)")
    words = lines.Words(line)
    start = words.at
    name = words.word()
    if name not in COMMANDS:
        return Mistake(before(line, start), "no command has this name (error 10)")
    for form in COMMANDS[name][0]:
        start = words.at
        try:
            given = form(words)
        except lines.NoForm:
            return Mistake(before(line, start), f"the form is: {form_of(name.decode())} (error 11)")
        found = in_given(name, form, given)
        if found:
            return Mistake(before(line, start) + found.place, found.reason)
    reason = f"nothing may follow here: {form_of(name.decode())} (error 11)"
    return Mistake(before(line, words.at), reason) if words.left() else None


def in_given(name: bytes, form: object, given: object) -> Optional[Mistake]:
    if form in (lines.literal, lines.info) and given is not None:
        found = literal_mistakes.mistake_in(given)
        return found and Mistake(found.place, f"{found.reason} (error 3)")
    if form is lines.hexadecimal:
        is_stream = name in (b"nsof", b"addx")
        look = stream_mistakes.mistake_in_digits if is_stream else stream_mistakes.bad_digit
        found = look(given.decode(errors="replace"))
        return found and Mistake(found.place, f"{found.reason} (error 1 or 2)")
    return None


def shown(script: Iterable[bytes]) -> Iterator[str]:
    for number, line in enumerate(commands(iter(script)), 1):
        line = line[:-1] if line.endswith(b"\r") else line
        found = in_words(line) if is_command(line) else None
        if found:
            yield in_text(line.decode(errors="replace"), found, number)
