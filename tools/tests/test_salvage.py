"""What `salvage` brings back of cards that the program made, as the program shows it on a fresh card."""

import resource
import struct
import subprocess
import sys
import tempfile
import unittest
from pathlib import Path
from random import Random

import measure
from cards import BLOCK, PROGRAM, TOOLS, blank, check, made_card, run, stored, tool

from newton.image import read_image
from newton.salvaged import entry_lines

from graphs import Frame, Large, String, Symbol
from images import HEADER
from layouts import record
from literals import read_literal
from streams import encode_flat

LARGE = bytes(range(256)) * 800
NOTES = [
    "format 0 Card 9", "mount 0", "soup 0 Notes", 'soup 0 "To \\"do\\""', "index 0 Notes title:string:ascend",
    "tags 0 Notes labels business personal", "info 0 Notes {owner: \"Ann\"}", "time 5", 'add 0 Notes {title: "Bread"}',
    'add 0 Notes {title: "Milk"}', 'set 0 Notes 0 title "Brot"', "remove 0 Notes 1", 'add 0 "To \\"do\\"" {n: 1}',
]


def little_memory() -> None:
    resource.setrlimit(resource.RLIMIT_AS, (500_000_000, 500_000_000))


def values(card: Path) -> list[str]:
    return sorted(stored(card).values())


class Salvaged(unittest.TestCase):
    def setUp(self) -> None:
        self.scratch = tempfile.TemporaryDirectory()
        self.folder = Path(self.scratch.name)

    def tearDown(self) -> None:
        self.scratch.cleanup()

    def card(self, lines: list[str], blocks: int = 13) -> Path:
        card = blank(self.folder, "card", blocks)
        self.assertTrue(all(it.startswith("ok") for it in run(card, "\n".join([*lines, ""]))))
        return card

    def damaged(self, card: Path, image: bytes) -> Path:
        path = card.with_name("damaged")
        path.write_bytes(image)
        return path

    def salvaged(self, card: Path, *words: object) -> str:
        before = card.read_bytes()
        ran = tool("salvage", card, *words)
        self.assertEqual((0, before), (ran.returncode, card.read_bytes()), ran.stderr.decode())
        return ran.stdout.decode()

    def played(self, script: str) -> Path:
        """A fresh card of the size that a script asks for, after it was played without a refusal."""
        size = int(next(it for it in script.splitlines() if "head -c" in it).split("head -c ")[1].split()[0])
        fresh = blank(self.folder, "fresh", size // BLOCK)
        self.assertEqual([], [it for it in run(fresh, script) if not it.startswith("ok")])
        return fresh

    def test_a_whole_card_comes_back_as_it_is(self) -> None:
        card = made_card(self.folder, "card", 1)
        self.assertEqual(values(card), values(self.played(self.salvaged(card))))

    def test_a_backup_keeps_ids_and_all_else(self) -> None:
        card = made_card(self.folder, "card", 2)
        stream = tool("salvage", card, "--backup").stdout
        wanted = subprocess.run([PROGRAM, "backup", card], capture_output=True, check=True).stdout
        self.assertEqual(wanted, stream)

    def test_declarations_come_back(self) -> None:
        fresh = self.played(self.salvaged(self.card(NOTES)))
        asked = 'mount 0\nsoups 0\nindexes 0 Notes\ntags 0 Notes\ninfo 0 Notes\n'
        told = ["ok 10 Card", 'ok Notes 0 1, "To \\"do\\"" 1 1', "ok title:string:ascend"]
        told += ["ok labels business personal", 'ok {owner: "Ann"}']
        self.assertEqual(told, run(fresh, asked))

    def test_a_flipped_gate_loses_nothing_though_check_says_clean(self) -> None:
        card = self.card(NOTES)
        image = bytearray(card.read_bytes())
        image[read_image(bytes(image)).banks[0].records[3].place] ^= 4
        damaged = self.damaged(card, bytes(image))
        self.assertTrue(check(damaged).startswith("ok clean"))
        self.assertNotEqual(stored(card), stored(damaged))
        self.assertEqual(values(card), values(self.played(self.salvaged(damaged))))

    def test_votes_and_header_may_be_lost(self) -> None:
        card = made_card(self.folder, "card", 3)
        for length in (3 * BLOCK, 3 * BLOCK + 16):
            damaged = self.damaged(card, bytes(length) + card.read_bytes()[length:])
            self.assertEqual(values(card), values(self.played(self.salvaged(damaged))))

    def test_the_directory_may_be_lost(self) -> None:
        card = self.card(NOTES)
        image = read_image(card.read_bytes())
        data = bytearray(image.data)
        for page in (page for record in image.banks[0].records for page in record.puts if page.object == 0):
            data[page.place : page.place + 516] = bytes(516)
        damaged = self.damaged(card, bytes(data))
        self.assertTrue(check(damaged).startswith("ok damaged payload"))
        fresh = self.played(self.salvaged(damaged))
        self.assertEqual(["ok 1 Salvaged", 'ok "Soup 0" 0 1, "Soup 1" 1 1'], run(fresh, "mount 0\nsoups 0\n"))
        self.assertEqual(values(card), values(fresh))

    def test_all_gives_earlier_and_removed_versions_too(self) -> None:
        fresh = self.played(self.salvaged(self.card(NOTES), "--all"))
        soups = 'ok Notes 0 1, "To \\"do\\"" 1 1, "Notes (earlier)" 2 2'
        self.assertEqual([soups], run(fresh, "mount 0\nsoups 0\n")[1:])
        asked = 'mount 0\nget 0 "Notes (earlier)" 0\nget 0 "Notes (earlier)" 1\n'
        self.assertEqual(['ok 5 {title: "Bread"}', 'ok 5 {title: "Milk"}'], run(fresh, asked)[1:])

    def test_a_record_that_was_never_finished_is_told_and_left_out(self) -> None:
        card = self.card(NOTES)
        image = bytearray(card.read_bytes())
        image[read_image(bytes(image)).banks[0].records[-1].place] = 255
        damaged = self.damaged(card, bytes(image))
        self.assertIn("unfinished; ", self.salvaged(damaged, "--list"))
        self.assertEqual(values(damaged), values(self.played(self.salvaged(damaged))))

    def large_card(self) -> Path:
        lines = [*NOTES, "soup 0 Photos", f"add 0 Photos {{of: {{bits: <<raw:*{len(LARGE)}>>}}}}"]
        pieces = [(at, LARGE[at : at + 50_000].hex()) for at in range(0, len(LARGE), 50_000)]
        return self.card([*lines, *(f"vwrite 0 Photos 0 of.bits {at} {piece}" for at, piece in pieces)], 700)

    def test_large_binaries_come_back_by_vwrite(self) -> None:
        card = self.large_card()
        script = self.salvaged(card)
        self.assertIn("\nvwrite 0 Photos 0 of.bits 1 01", script)
        self.assertEqual(values(card), values(self.played(script)))

    def test_a_large_binary_without_a_path_is_zeros_where_no_line_has_room_for_its_bytes(self) -> None:
        graph = read_literal(b"{a: [<<raw:" + b"07" * 90_000 + b">>]}")
        line, told = entry_lines(0, "Notes", 0, graph)
        self.assertEqual("add 0 Notes {a: [<<raw:*90000>>]}", line)
        self.assertIn("no path leads", told)
        graph.tags.append(Symbol(b"more"))
        graph.values.append(String([233] * 40_000))
        (told,) = entry_lines(0, "Notes", 0, graph)
        self.assertIn("no line has room", told)

    def test_what_is_missing_of_a_large_binary_is_zeros_and_is_told(self) -> None:
        card = self.large_card()
        image = read_image(card.read_bytes())
        data = bytearray(image.data)
        for page in (page for record in image.banks[0].records for page in record.puts):
            if page.object == 2 and page.part == 3:
                data[page.place : page.place + 516] = bytes(516)
        script = self.salvaged(self.damaged(card, bytes(data)))
        self.assertIn("1 pages of its large binaries are gone", script)
        found = run(self.played(script), "mount 0\nvread 0 Photos 0 of.bits 1000 1500\n")[1][3:]
        self.assertEqual(LARGE[1000:1500] + bytes(500) + LARGE[2000:2500], bytes.fromhex(found))

    def test_one_soup_or_one_bank_alone(self) -> None:
        card = self.card(NOTES)
        fresh = self.played(self.salvaged(card, "--soup", "Notes"))
        self.assertEqual(["ok Notes 0 1"], run(fresh, "mount 0\nsoups 0\n")[1:])
        self.assertEqual(1, tool("salvage", card, "--bank", 1).returncode)

    def test_what_holds_no_card_gives_no_entry_and_no_fault(self) -> None:
        for data in (b"", b"x", bytes(53_248), Random(1).randbytes(60_000), b"\xff" * 53_248, b"NSTORE" * 9_000):
            path = self.folder / "other"
            path.write_bytes(data)
            ran = tool("salvage", path)
            self.assertEqual((1, False), (ran.returncode, b"Traceback" in ran.stderr), ran.stderr.decode())
        self.assertEqual(2, tool("salvage", self.folder / "none").returncode)

    def test_large_binaries_that_claim_more_than_there_is_take_no_memory(self) -> None:
        graph = encode_flat(Frame([Symbol(b"bits")], [Large(Symbol(b"raw"), b"")]))
        puts = {}
        for at in range(200):
            entry = struct.pack(">HHII", 0, 1, at, 0) + graph + struct.pack(">III", 2, 2 * at + 2, 1_000_000)
            puts[2 * at] = struct.pack(">III", 2 * at + 1, 0, len(entry)) + entry.ljust(500, b"\0")
            puts[2 * at + 1] = struct.pack(">III", 2 * at + 2, 7, 1_000_000) + bytes(500)
        claims = bytes(12_288) + HEADER + record(puts, [])
        path = self.folder / "claims"
        path.write_bytes(claims.ljust(BLOCK * 200, b"\xff"))
        for words in ([], ["--all"], ["--list"], ["--backup"]):
            command = [sys.executable, TOOLS / "salvage", path, *words]
            ran = subprocess.run(command, capture_output=True, preexec_fn=little_memory)
            self.assertIn(b"200 live", ran.stderr)
            self.assertNotIn(b"Traceback", ran.stderr)

    def test_whatever_the_damage_the_script_plays(self) -> None:
        whole = measure.read_card(made_card(self.folder, "card", 4).read_bytes())
        for name, way in measure.WAYS.items():
            with self.subTest(name):
                damaged = self.folder / "damaged"
                damaged.write_bytes(way(Random(7), whole))
                self.played(self.salvaged(damaged))


if __name__ == "__main__":
    unittest.main()
