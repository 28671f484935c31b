"""`dump` and `load --script`: a whole card as a script, and the same store again."""

from dataclasses import replace
from pathlib import Path
from random import Random

from commands import MOST_LINE
from graphs import Large, Symbol
from images import is_same_store, store_of_image
from layouts import random_image
from literals import print_literal, read_literal
from newton import scripts
from playing import Playing
from replies import of_name
from scripts import written
from stores import Store, Tags
from world import Unit, World

SEEDS = range(12)
BLOCKS = 60


def without_ids(store: Store) -> Store:
    """The store as it is made again: ids from 0 on, without gaps."""
    soups = tuple(
        replace(
            soup,
            sig=sig,
            next_uid=len(soup.entries),
            entries=tuple(entry._replace(uid=uid) for uid, entry in enumerate(soup.entries)),
        )
        for sig, soup in enumerate(store.soups)
    )
    return replace(store, soups=soups, next_soup=len(soups))


class Dump(Playing):
    def comes_back(self, card: Path) -> None:
        """Plays the script of a card over two blank ones, and compares the stores."""
        store = store_of_image(card.read_bytes())
        script = self.tool("dump", card)
        self.assertEqual((script.status, script.told), (0, ""))
        self.blank("fresh", BLOCKS)
        replies = self.newton("run", "fresh", given=script.output).splitlines()
        self.assertEqual([it for it in replies if not it.startswith("ok")], [])
        again = store_of_image((self.folder / "fresh").read_bytes())
        self.assertTrue(is_same_store(again, without_ids(store)))
        with_ids = self.tool("dump", "--ids", card)
        self.blank("same", BLOCKS)
        ended = self.tool("load", "--script", "same", given=with_ids.output)
        self.assertEqual((ended.status, ended.told), (0, ""))
        self.assertEqual(self.newton("backup", "same"), self.newton("backup", str(card)))

    def test_stores_after_random_scripts_come_back(self) -> None:
        for seed in SEEDS:
            random = Random(seed)
            script, _ = written(random, World([Unit(20)]), 1, 120)
            self.blank("card", 20)
            self.newton("run", "card", given=b"\n".join(script))
            if self.newton("check", "card").startswith("ok clean"):
                self.comes_back(self.folder / "card")

    def test_all_that_a_store_has_comes_back(self) -> None:
        card = self.card(
            "card",
            'soup 0 "To Do"',
            "soup 0 gone",
            "drop 0 gone",
            "soup 0 Names",
            "index 0 Names name.last:string:ascend at:int:descend",
            "tags 0 Names labels work home",
            'info 0 Names {owner: "K\u00e4the"}',
            "time 4294967295",
            'add 0 Names {name: {last: "Kern"}, labels: \'work, me: #1={x: #1#}}',
            "add 0 Names {}",
            "remove 0 Names 1",
            "time 3",
            "add 0 Names {in: {bits: #1=<<raw:*70000>>}, again: #1#, small: <<raw:01>>}",
            "vwrite 0 Names 2 in.bits 31000 0102",
            "vwrite 0 Names 2 again 69999 03",
            "add 0 Names {deep: [<<raw:" + "AB" * 600 + ">>]}",
            blocks=BLOCKS,
        )
        self.comes_back(card)
        script = self.tool("dump", card).output
        for line in ("time 4294967295\n", "% 1 was 2\n", "vwrite 0 Names 1 again 31000 0102\n"):
            self.assertIn(line, script)

    def test_a_backup_is_dumped_as_its_card(self) -> None:
        card = self.card("card", "soup 0 S", "add 0 S {a: 1}", "add 0 S {}", "remove 0 S 1")
        before = card.read_bytes()
        (self.folder / "kept").write_bytes(self.newton("backup", "card").encode("utf-8", "surrogateescape"))
        for words in ((), ("--ids",), ("--json", "S"), ("--csv", "S")):
            self.assertEqual(self.tool("dump", *words, "kept"), self.tool("dump", *words, "card"))
        self.assertEqual(card.read_bytes(), before)

    def test_entries_that_no_literal_has_room_for_come_back(self) -> None:
        nils = "[" + ", ".join(["nil"] * 40_000) + "]"
        graphs = [read_literal(f"{{a: {nils}{more}}}".encode()) for more in ("", ", b: <<raw:01>>", "")]
        for graph, size in ((graphs[1], 90_000), (graphs[2], 90_000)):
            large = Large(Symbol(b"raw"), b"\x07" * size)
            graph.values[-1] = large if graph is graphs[1] else [large]
        self.assertEqual(scripts.addition(graphs[0]).verb, "addx")
        longest = scripts.addition(read_literal(f'{{a: "{"a" * (scripts.ROOM - 7)}"}}'.encode()))
        self.assertEqual((longest.verb, len(longest.words)), ("add", scripts.ROOM))
        name = of_name(b'"' * 39)
        self.assertLessEqual(len(f"vwrite 7 {name} 4294967295 "), MOST_LINE - scripts.ROOM)
        steps = scripts.addition(graphs[1])
        self.assertEqual([steps.verb, *[verb for verb, _ in steps.rest]], ["addx", "set", *["vwrite"] * 3])
        script = ["format 0 A 1", "mount 0", "soup 0 S", steps.first(0, "S"), *steps.others(0, "S", 0)]
        self.blank("card", 200)
        self.assertNotIn("error", self.newton("run", "card", given="\n".join(script)))
        (entry,) = store_of_image((self.folder / "card").read_bytes()).soups[0].entries
        self.assertEqual(print_literal(entry.graph), print_literal(graphs[1]))

    def test_what_no_command_says_is_told(self) -> None:
        large = read_literal(("{a: [<<raw:" + "07" * 90_000 + ">>]}").encode())
        with self.assertRaises(scripts.TooLong):
            scripts.addition(large)
        self.card("card", "soup 0 S", "tags 0 S a b", "add 0 S {x: 1}")
        store = store_of_image((self.folder / "card").read_bytes())
        soup = replace(store.soups[0], tags=Tags((b"a",), ()))
        soup = soup.with_entry(soup.entries[0]._replace(uid=1, graph=large))
        script = scripts.Script(replace(store, soups=(soup,)), False)
        self.assertNotIn("tags", "\n".join(script.lines()))
        self.assertEqual(len(script.left_out), 2)
        far = replace(soup, next_uid=500_000)
        with self.assertRaises(scripts.Failed):
            scripts.Script(replace(store, soups=(far,)), True)

    def test_what_is_no_card_is_told(self) -> None:
        (self.folder / "text").write_bytes(b"hello")
        (self.folder / "stream").write_bytes(b"\x02\x0a")
        (self.folder / "cut").write_bytes(b"\x02\x06")
        self.blank("blank")
        for name, told in (
            ("none", "there is no such file"),
            ("text", "13 to 4,099 whole blocks"),
            ("stream", "neither a card nor the backup"),
            ("cut", "neither a card nor the backup"),
            ("blank", "no store that can be read"),
        ):
            ended = self.tool("dump", name)
            self.assertEqual((ended.status, ended.output), (1, ""))
            self.assertEqual(ended.told.count("\n"), 1)
            self.assertIn(told, ended.told)

    def test_a_script_is_played_over_a_blank_card_alone(self) -> None:
        script = "format 0 Card 9\nmount 0\nsoup 0 S\n"
        card = self.card("card", "soup 0 Notes")
        damaged = self.blank("damaged")
        damaged.write_bytes(damaged.read_bytes()[:-1] + b"x")
        (self.folder / "short").write_bytes(bytes(4096))
        for path in (card, damaged, self.folder / "short"):
            before = path.read_bytes()
            self.assertEqual(self.tool("load", "--script", path, given=script).status, 1)
            self.assertEqual(path.read_bytes(), before)
        self.blank("fresh")
        self.assertEqual(self.tool("load", "--script", "fresh", given=script + "quit\n").status, 0)
        self.blank("other").write_bytes(b"\xff" * 53_248)
        ended = self.tool("load", "--script", "other", given=script + "soup 0 S\nsoup 0 T\n")
        self.assertEqual(ended.status, 1)
        self.assertIn("line 4: soup 0 S: error 31 exists", ended.told)
        self.blank("third")
        ended = self.tool("load", "--script", "third", given=script + "soup 0\n")
        self.assertEqual(ended.status, 1)
        self.assertIn("nothing was written, for 4:7: the form is: soup U NAME", ended.told)
        self.assertEqual((self.folder / "third").read_bytes(), bytes(53_248))


class Images(Playing):
    def test_stores_of_images_made_at_random_come_back(self) -> None:
        kept = 0
        for seed in SEEDS:
            random = Random(seed)
            unit = Unit(16)
            written(random, World([unit]), 1, 40)
            image = random_image(random, unit.store, 16) if unit.store else None
            store = store_of_image(image) if image else None
            if store is None or any(it.tags and not it.tags.symbols for it in store.soups):
                continue
            (self.folder / "card").write_bytes(image)
            Dump.comes_back(self, self.folder / "card")
            kept += 1
        self.assertGreater(kept, 0)


