"""What is typed at a shell in docs/TOOLS.md, as it is typed: each part in an empty folder."""

import os

from examples import differing_steps, steps_of
from playing import TOOLS, TOP, Playing


class Documents(Playing):
    def test_each_page_of_use_is_as_it_is_played(self) -> None:
        before = os.environ["PATH"]
        self.addCleanup(os.environ.__setitem__, "PATH", before)
        os.environ["PATH"] = f"{TOOLS}:{before}"
        parts = (TOP / "docs/TOOLS.md").read_text().split("\n## ")[1:]
        self.assertGreater(len(parts), 5)
        for part in parts:
            with self.subTest(part.split("\n")[0]):
                self.assertEqual(differing_steps(steps_of(part), os.environ["NEWTON"]), [])
