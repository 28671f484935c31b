"""`blob`: files in large binaries, byte for byte, and nothing lost by a slip."""

from random import Random

from playing import Playing


class Blob(Playing):
    def test_a_file_goes_in_and_comes_back(self) -> None:
        card = self.card("card", "soup 0 S", "add 0 S {a: 1, in: {x: 2}}", blocks=200)
        random = Random(1)
        for path, size in (("photo", 61_001), ("in.photo", 1), ("none", 0), ("zeros", 70_000)):
            data = bytes(size) if path == "zeros" else bytes(random.choices(range(256), k=size))
            (self.folder / "file").write_bytes(data)
            ended = self.tool("blob", "put", card, "S", 0, path, "file", "--class", "picture")
            self.assertEqual(ended.status, 0, ended.told)
            counted = "1 byte" if size == 1 else f"{size} bytes"
            self.assertEqual(ended.output, f"{card}: {counted} of the class picture put at {path}\n")
            self.assertEqual(self.tool("blob", "get", card, "S", 0, path, f"back.{path}").status, 0)
            self.assertEqual((self.folder / f"back.{path}").read_bytes(), data)
        self.assertTrue(self.newton("check", "card").startswith("ok clean 1 1 "))

    def test_a_value_and_a_file_stay_unless_it_is_told_to_replace_them(self) -> None:
        self.card("card", "soup 0 S", "add 0 S {a: <<raw:0102>>, b: <b:03>}")
        (self.folder / "file").write_bytes(b"new")
        before = (self.folder / "card").read_bytes()
        ended = self.tool("blob", "put", "card", "S", 0, "a", "file")
        self.assertEqual((ended.status, ended.output), (1, ""))
        self.assertIn("--replace", ended.told)
        self.assertEqual((self.folder / "card").read_bytes(), before)
        ended = self.tool("blob", "get", "card", "S", 0, "a", "file")
        self.assertEqual((ended.status, (self.folder / "file").read_bytes()), (1, b"new"))
        self.assertEqual(self.tool("blob", "put", "--replace", "card", "S", 0, "a", "file").status, 0)
        self.assertEqual(self.tool("blob", "get", "--force", "card", "S", 0, "a", "file").status, 0)
        self.assertEqual(self.tool("blob", "get", "card", "S", 0, "a").output, "new")
        self.assertEqual(self.tool("blob", "get", "card", "S", 0, "b").output, "\x03")
        self.assertIn("<<raw:6E6577>>", self.newton("run", "card", given="mount 0\nget 0 S 0\n"))

    def test_what_can_not_be_done_is_told(self) -> None:
        self.card("card", "soup 0 S", "add 0 S {a: 1}")
        (self.folder / "large").write_bytes(bytes(1_000_001))
        (self.folder / "full").write_bytes(b"x" * 20_000)
        for words, told in (
            (("put", "card", "S", 0, "b", "large"), "at most 1000000"),
            (("put", "card", "S", 0, "b", "full"), "error 33 full"),
            (("put", "card", "S", 1, "b", "full"), "error 32 entry"),
            (("put", "card", "S", 0, "a.b", "full"), "error 38 path"),
            (("put", "card", "S", 0, "b c", "full"), "no path"),
            (("put", "card", "S", 0, "b", "none"), "none: No such file"),
            (("get", "card", "S", 0, "a"), "no binary"),
            (("get", "card", "S", 0, "b"), "nothing"),
            (("get", "full", "S", 0, "b"), "13 to 4,099 whole blocks"),
            (("get", "none", "S", 0, "b"), "can't be read"),
        ):
            ended = self.tool("blob", *words)
            self.assertEqual((ended.status, ended.output), (1, ""), words)
            self.assertIn(told, ended.told)
