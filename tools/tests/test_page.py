"""What `page` shows of cards that the program made, against the replies of the program, and in a browser."""

import json
import os
import pty
import re
import subprocess
import sys
import tempfile
import unittest
from pathlib import Path
from urllib.parse import quote

from browser import CHROMIUM, MISSING, opened
from cards import PROGRAM, TOOLS, check, tool
from shows import HOSTILE, address_card, damaged_card, hostile_card

from newton.page import hashed

ORDERS = {
    "in order of ids": "{}",
    "last:string:ascend": "{indexPath: 'last}",
    "town:string:ascend last:string:descend": "{indexPath: ['town, 'last]}",
}


def data_of(page: Path) -> dict:
    text = page.read_text(encoding="utf-8")
    return json.loads(re.search(r'id="data">(.*?)</script>', text, re.DOTALL)[1])


def walked(cards: list[Path], query: str) -> list[list[str]]:
    """Each entry that a cursor walks: unit, id, minute, literal."""
    script = "".join(f"mount {at}\n" for at in range(len(cards))) + f"query {query}\nentry 0\n" + "next 0\n" * 400
    ran = subprocess.run([PROGRAM, "run", *cards], input=script.encode(), capture_output=True, check=True)
    replies = ran.stdout.decode().splitlines()[len(cards) + 1 :]
    return [it.split(" ", 4)[1:] for it in replies if it.startswith("ok ") and it not in ("ok nil", "ok deleted")]


class Pages(unittest.TestCase):
    @classmethod
    def setUpClass(cls) -> None:
        cls.scratch = tempfile.TemporaryDirectory()
        cls.folder = folder = Path(cls.scratch.name)
        cls.one, cls.other = address_card(folder, "one", 4, 60), address_card(folder, "other", 5, 40)
        cls.damaged, cls.hostile = damaged_card(folder, "damaged", 1), hostile_card(folder, "hostile")
        cls.pages = {
            "union": cls.paged(cls.one, cls.other),
            "damaged": cls.paged(cls.damaged),
            "hostile": cls.paged(cls.hostile),
        }

    @classmethod
    def tearDownClass(cls) -> None:
        cls.scratch.cleanup()

    @classmethod
    def paged(cls, *cards: Path) -> Path:
        before = [it.read_bytes() for it in cards]
        ran = tool("page", *cards)
        assert ran.returncode == 0 and not ran.stderr, ran.stderr.decode()
        assert before == [it.read_bytes() for it in cards]
        page = cards[0].with_suffix(".html")
        page.write_bytes(ran.stdout)
        return page

    def view(self, data: dict, name: str) -> dict:
        return next(it for it in data["views"] if it["name"] == name)


class Shown(Pages):
    def test_rows_stand_as_a_cursor_walks_them(self) -> None:
        data = data_of(self.pages["union"])
        orders = {it["label"]: it["rows"] for it in self.view(data, "Names")["orders"]}
        for label, query in ORDERS.items():
            found = walked([self.one, self.other], f"* Names {query}")
            wanted = [(int(unit), int(uid), int(time)) for unit, uid, time, _ in found]
            self.assertTrue(wanted)
            self.assertEqual(wanted, [tuple(data["rows"][it][:3]) for it in orders[label]], label)

    def test_entries_are_the_literals_of_the_program(self) -> None:
        data = data_of(self.pages["union"])
        for soup in ("Names", "Notes"):
            rows = self.view(data, soup)["orders"][0]["rows"]
            wanted = [it[3] for it in walked([self.one, self.other], f"* {soup} {{}}")]
            self.assertEqual(wanted, [data["rows"][it][7] for it in rows])

    def test_large_binaries_are_told_by_their_first_bytes_and_as_pictures(self) -> None:
        data = data_of(self.pages["union"])
        literals = [data["rows"][it][7] for it in self.view(data, "Photos")["orders"][0]["rows"]]
        self.assertRegex(literals[0], r"bits: <<PNG:89504E470D0A1A0A[0-9A-F]{48}\.\.\.\d+>>")
        self.assertEqual(6, len(data["pictures"]))
        self.assertTrue(all(it.startswith("data:image/png;base64,") for it in data["pictures"]))

    def test_a_damaged_card_is_told_as_check_tells_it(self) -> None:
        card = data_of(self.pages["damaged"])["cards"][0]
        self.assertEqual(check(self.damaged), card["check"])
        self.assertEqual(int(check(self.damaged).split()[3]), card["place"])
        self.assertTrue(any(bank["damage"] for bank in card["banks"]))

    def test_each_byte_of_a_bank_is_told_once(self) -> None:
        for bank in (bank for page in self.pages.values() for card in data_of(page)["cards"] for bank in card["banks"]):
            self.assertEqual(bank["end"] - bank["start"], sum(bank["sizes"]))
            ends = [place + 516 for place, *_ in bank["pages"]]
            self.assertTrue(all(end <= place for end, (place, *_) in zip(ends, bank["pages"][1:])))

    def test_nothing_of_a_card_stands_in_the_page_as_markup(self) -> None:
        text = self.pages["hostile"].read_text(encoding="utf-8")
        written = re.search(r'id="data">(.*?)</script>', text, re.DOTALL)[1]
        self.assertFalse(set("<>&") & set(written))
        around = text.replace(written, "")
        for it in HOSTILE[:4]:
            self.assertNotIn(it, around)
        style = re.search(r"<style>(.*?)</style>", text, re.DOTALL)[1]
        script = text.rsplit("<script>", 1)[1].split("</script>")[0]
        policy = re.search(r'Content-Security-Policy" content="([^"]*)"', text)[1].replace("&#x27;", "'")
        wanted = ["default-src 'none'", f"style-src {hashed(style)}", f"script-src {hashed(script)}", "img-src data:"]
        self.assertEqual([*wanted, "base-uri 'none'", "form-action 'none'"], policy.split("; "))

    def test_a_terminal_sees_a_bar(self) -> None:
        terminal, shown = pty.openpty()
        command = [sys.executable, TOOLS / "page", self.hostile]
        subprocess.run(command, stdout=subprocess.DEVNULL, stderr=shown, check=True)
        os.close(shown)
        self.assertRegex(os.read(terminal, 100_000), rb"\[#+ *\] \S*hostile: tables")
        os.close(terminal)

    def test_a_file_that_is_not_there_ends_with_2(self) -> None:
        self.assertEqual(2, tool("page", self.folder / "none").returncode)


@unittest.skipUnless(CHROMIUM, MISSING)
class InABrowser(Pages):
    """What the script makes of the data."""

    def open(self, name: str, **at: object):
        page = opened(self.pages[name], "&".join(f"{key}={quote(str(it))}" for key, it in at.items()))
        self.assertEqual([], page.console)
        return page

    def test_the_table_has_the_rows_of_a_cursor(self) -> None:
        page = self.open("union", soup="Names", order=2)
        wanted = [uid for _, uid, _, _ in walked([self.one, self.other], f"* Names {[*ORDERS.values()][2]}")]
        self.assertEqual(wanted, page.rows())

    def test_a_search_finds_what_a_query_finds(self) -> None:
        for typed, how, slots in (
            ("malm\u00d6", "words", 'words: "malm\u00d6"'),
            ("s z", "words", 'words: ["s", "z"]'),
            ("ann", "entire", 'words: "ann", entireWords: true'),
            ("ON", "text", 'text: "ON"'),
        ):
            page = self.open("union", soup="Names", find=typed, how=how)
            wanted = [uid for _, uid, _, _ in walked([self.one, self.other], f"* Names {{{slots}}}")]
            self.assertTrue(wanted)
            self.assertEqual(wanted, page.rows(), typed)

    def test_an_entry_opens_as_literal_and_tree(self) -> None:
        data = data_of(self.pages["union"])
        row = self.view(data, "Photos")["orders"][0]["rows"][0]
        page = self.open("union", soup="Photos", row=row)
        self.assertEqual(data["rows"][row][7], page.text("literal"))
        self.assertIn("the same as #0", page.text("tree"))
        self.assertIn('<img src="data:image/png', page.dom)

    def test_a_damaged_card_has_its_map(self) -> None:
        page = self.open("damaged", card=0)
        self.assertIn(check(self.damaged), page.text("card-facts"))
        self.assertIn("Block 3", page.text("block"))

    def test_nothing_of_a_hostile_card_runs(self) -> None:
        for row in range(len(HOSTILE) + 1):
            page = self.open("hostile", soup="Texts", row=row) if row % 4 == 0 else None
            if page:
                self.assertIn("<title>hostile</title>", page.dom)
                self.assertNotRegex(page.dom, r"<(img|svg|b)[ >]")


if __name__ == "__main__":
    unittest.main()
