"""A text or bytes that are read once, from the front on."""

import re
from typing import Optional


class Scanner:
    """What reads one of the formats; its fault is what says that the text has not the form."""

    fault: type[Exception]

    def __init__(self, text):
        self.text, self.at = text, 0

    def wants(self, holds) -> None:
        if not holds:
            raise self.fault

    def left(self) -> int:
        return len(self.text) - self.at

    def take(self, count: int):
        before, self.at = self.at, self.at + count
        self.wants(self.at <= len(self.text))
        return self.text[before : self.at]

    def number(self, count: int, most: int = 2**32 - 1) -> int:
        """A number of so many bytes."""
        number = int.from_bytes(self.take(count), "big")
        self.wants(number <= most)
        return number

    def found(self, form: re.Pattern) -> Optional[re.Match]:
        """What stands next, where it has a form; it is passed."""
        match = form.match(self.text, self.at)
        self.at = match.end() if match else self.at
        return match

    def passes(self, token) -> bool:
        """Whether a token stands next; it is passed."""
        is_there = self.text.startswith(token, self.at)
        self.at += len(token) if is_there else 0
        return is_there
