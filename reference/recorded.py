"""The program once more, as newton.py is, which keeps each run as a case of the quick check.

usage: python3 reference/recorded.py FOLDER MODE [WORD..]
"""

import pickle
import sys
import time
from pathlib import Path
from typing import BinaryIO

from cases import Case
from newton import output


class Recorder:
    """An input that keeps what is taken of it."""

    def __init__(self, source: BinaryIO):
        self.source, self.taken = source, b""

    def read(self, most: int) -> bytes:
        return self.kept(self.source.read(most))

    def readline(self, most: int) -> bytes:
        return self.kept(self.source.readline(most))

    def kept(self, taken: bytes) -> bytes:
        self.taken += taken
        return taken


def main(folder: str, *words: str) -> int:
    source, wanted = Recorder(sys.stdin.buffer), b""
    files = {it: Path(it).read_bytes() for it in words[1:] if Path(it).is_file()}
    begun = time.time_ns()
    for piece in output(list(words), source):
        wanted += piece
        sys.stdout.buffer.write(piece)
        sys.stdout.buffer.flush()
    Path(folder, str(begun)).write_bytes(pickle.dumps(Case("", list(words), source.taken, files, wanted)))
    return 0


if __name__ == "__main__":
    sys.exit(main(*sys.argv[1:]))
