"""A browser without a window, where Debian's `chromium` is installed: what a page is once its script has run."""

import html
import re
import shutil
import subprocess
import tempfile
from pathlib import Path
from typing import NamedTuple

CHROMIUM = shutil.which("chromium")
MISSING = "chromium is not installed: the pages are not tried in a browser"


class Opened(NamedTuple):
    dom: str
    console: list[str]

    def rows(self) -> list[str]:
        """The first cell of each row of the table, from the top."""
        form = r'<div role="row" class="row".*?data-at="(\d+)".*?<span role="gridcell"[^>]*>([^<]*)'
        rows = re.findall(form, self.dom)
        return [html.unescape(text) for _, text in sorted(rows, key=lambda it: int(it[0]))]

    def text(self, identity: str) -> str:
        """The text of an element that has no other one of its kind in it."""
        found = re.search(rf'<(\w+)[^>]* id="{identity}"[^>]*>(.*?)</\1>', self.dom, re.DOTALL)
        return html.unescape(re.sub(r"<[^>]*>", "", found[2])) if found else ""

    def milliseconds(self) -> float:
        """From the start of the load until the page was there."""
        return float(re.search(r'data-opened="([0-9.]+)"', self.dom)[1])


def opened(page: Path, at: str = "") -> Opened:
    """A page that is opened at a place, in a window that is high enough for all rows of a small card."""
    with tempfile.TemporaryDirectory() as profile:
        options = ["--headless", "--no-sandbox", "--disable-gpu", "--enable-logging=stderr", "--window-size=1400,9000"]
        command = [CHROMIUM, *options, f"--user-data-dir={profile}", "--dump-dom", f"{page.as_uri()}#{at}"]
        ran = subprocess.run(command, capture_output=True, check=True)
    console = [it for it in ran.stderr.decode(errors="replace").splitlines() if "CONSOLE" in it]
    return Opened(ran.stdout.decode(), console)
