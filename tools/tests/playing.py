"""What the tests share: a folder with cards, the program, and the tools as a shell runs them."""

import os
import subprocess
import sys
import tempfile
import unittest
from pathlib import Path
from typing import NamedTuple, Union

TOOLS = Path(__file__).resolve().parent.parent
TOP = TOOLS.parent
LONGEST_RUN = 600


class Ended(NamedTuple):
    status: int
    output: str
    told: str


class Playing(unittest.TestCase):
    """A test in an empty folder."""

    def setUp(self) -> None:
        made = tempfile.TemporaryDirectory()
        self.addCleanup(made.cleanup)
        self.folder = Path(made.name)

    def ran(self, command: list, given: Union[str, bytes]) -> Ended:
        data = given.encode() if isinstance(given, str) else given
        environment = {**os.environ, "PYTHONDONTWRITEBYTECODE": "1", "COLUMNS": "200"}
        ran = subprocess.run(
            command, input=data, capture_output=True, cwd=self.folder, env=environment, timeout=LONGEST_RUN
        )
        return Ended(ran.returncode, ran.stdout.decode("utf-8", "surrogateescape"), ran.stderr.decode())

    def tool(self, name: str, *words: object, given: Union[str, bytes] = b"") -> Ended:
        return self.ran([sys.executable, str(TOOLS / name), *map(str, words)], given)

    def newton(self, *words: str, given: Union[str, bytes] = b"") -> str:
        ended = self.ran([os.environ["NEWTON"], *words], given)
        self.assertEqual((ended.status, ended.told), (0, ""))
        return ended.output

    def blank(self, name: str, blocks: int = 13) -> Path:
        path = self.folder / name
        path.write_bytes(bytes(4096 * blocks))
        return path

    def card(self, name: str, *lines: str, blocks: int = 13) -> Path:
        """A card with a store, on which each line was answered with ok."""
        path = self.blank(name, blocks)
        script = "\n".join(["format 0 Card 9", "mount 0", *lines])
        for line, reply in zip(script.splitlines(), self.newton("run", name, given=script).splitlines()):
            self.assertTrue(reply.startswith("ok"), f"{line}: {reply}")
        return path
