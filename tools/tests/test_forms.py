"""JSON and CSV: entries there and back, on cards and at random, and what is told where a form can't say one."""

import json
import sys
from random import Random

from graphs import Frame
from literals import NoLiteral, print_literal, read_literal
from newton import csv_form, json_form
from newton.run import Failed
from playing import TOOLS, Playing
from stores import Entry
from streams import encode_flat
from values import Values

# Literals and the JSON that says them.
PAIRS = [
    ("{a: 1, b: -536870912, d: nil, e: true}", {"a": 1, "b": -536870912, "d": None, "e": True}),
    ('{c: "x\\u00E4\\u0000", d: "\\uD800"}', {"c": "x\xe4\0", "d": "\ud800"}),
    ("{a: 'work, b: $a, c: $\\FFFF}", {"a": {"$symbol": "work"}, "b": {"$char": "a"}, "c": {"$char": "\uffff"}}),
    ("{a: <real:3FF8000000000000>, b: <real:00>}", {"a": 1.5, "b": {"$binary": "00", "class": "real"}}),
    ("{a: <Real:3FF8000000000000>}", {"a": {"$binary": "3FF8000000000000", "class": "Real"}}),
    ("{a: <real:7FF0000000000000>}", {"a": {"$binary": "7FF0000000000000", "class": "real"}}),
    ("{b: &00000003}", {"b": {"$word": "00000003"}}),
    ("{a: [1, [x: 'y], []]}", {"a": [1, {"$array": [{"$symbol": "y"}], "class": "x"}, []]}),
    ("{b: [|a b|:]}", {"b": {"$array": [], "class": "a b"}}),
    ("{a: <<raw:00FF>>, b: <b:>}", {"a": {"$large": "00FF", "class": "raw"}, "b": {"$binary": "", "class": "b"}}),
    ("#1={me: #1#}", {"$label": 0, "value": {"me": {"$ref": 0}}}),
    ('{a: #1="x", b: #1#}', {"a": {"$label": 0, "value": "x"}, "b": {"$ref": 0}}),
    ("{|$ref|: 1, b: {|$x|: 2}}", {"$frame": {"$ref": 1, "b": {"$frame": {"$x": 2}}}}),
    ("{|a b|: {}}", {"a b": {}}),
]
BAD_JSON = [
    ('{"a": 1} {"b":', "line 1, column 15"),
    ('\n{"a": 1}\n[2]', "line 3: an entry is a frame"),
    ('{"a": 536870912}', "no integer"),
    ('{"a": NaN}', "NaN"),
    ('{"a": 1, "a": 2}', "twice"),
    ('{"a": 1, "A": 2}', "twice"),
    ('{"": 1}', "no name"),
    ('{"\u00e4": 1}', "no name"),
    ('{"a": {"$foo": 1}}', "no form"),
    ('{"a": {"$symbol": "x", "b": 1}}', "wants the keys"),
    ('{"a": {"$symbol": 1}}', "wants a text"),
    ('{"a": {"$char": "ab"}}', "one character"),
    ('{"a": {"$word": "00000001"}}', "no immediate"),
    ('{"a": {"$binary": "0", "class": "b"}}', "hexadecimal"),
    ('{"a": {"$ref": 0}}', "nowhere"),
    ('{"a": {"$ref": [0]}}', "wants a number"),
    ('{"a": {"$label": null, "value": {}}}', "wants a number"),
    ('{"a": {"$binary": "00", "class": 1}}', "1 is no name"),
    ('{"a": {"$label": 0, "value": {"$label": 1, "value": {}}}}', "a label before a label"),
    ('{"a": 1' + "0" * 5000 + "}", "line 1"),
    ('{"a": {"$label": 0, "value": 1}}', "before no object"),
    ('[{"a": ' + "[" * 200 + "]" * 200 + "}]", "element 1: it passes a limit"),
    ('{"a": ' + "[" * 100_000, "recursion"),
]
CSV = 'name.first,name.last,age:int,group:symbol,rate:real,done:bool,|a b|,mark:char\r\n'
ROWS = [
    (
        "Ada,Kern,36,work,1.5,true,x,c",
        '{name: {first: "Ada", last: "Kern"}, age: 36, group: \'work, rate: <real:3FF8000000000000>, '
        'done: true, |a b|: "x", mark: $c}',
    ),
    (",,,,,,,", "{}"),
    (
        ",Kern,\\nil,,2,nil,,",
        '{name: {last: "Kern"}, age: nil, rate: <real:4000000000000000>, done: nil}',
    ),
    (
        '"a ""b"", c","d\r\ne",,,,,"\\[1, \'x]",',
        '{name: {first: "a \\"b\\", c", last: "d\\u000D\\u000Ae"}, |a b|: [1, \'x]}',
    ),
]
BAD_CSV = [
    ("a,b\n1\n", "line 2: 1 cells, and 2 columns"),
    ("a:int\nx\n", "line 2: x is no integer"),
    ("a:int\n536870912\n", "no integer"),
    ("a:real\n1e999\n", "no finite number"),
    ("a:real\n1.2.3\n", "1.2.3"),
    ("a:char\nab\n", "one character"),
    ("a:bool\nyes\n", "neither true nor nil"),
    ("a:symbol\n\u00e4\n", "no name"),
    ("a\n\\[1\n", "no literal"),
    ("a,a\n1,2\n", "two columns"),
    ("a,A\n1,2\n", "twice"),
    ("\u00e4\n1\n", "no name of a slot"),
    ("a.b,a\n1,2\n", "twice"),
    ("a,a.b\n1,2\n", "another value"),
    ('a\n"x\n', "line"),
    ("$time,a\nsoon,1\n", "no minute"),
]


def literal(text: str):
    return read_literal(text.encode())


def is_same(one, other) -> bool:
    return encode_flat(one) == encode_flat(other)


def random_frames(seed: int, count: int) -> list:
    random, found = Random(seed), []
    while len(found) < count:
        try:
            value = literal(Values(random).any_value())
        except NoLiteral:
            continue
        found += [value] if isinstance(value, Frame) else []
    return found


class Json(Playing):
    def test_each_value_has_its_form(self) -> None:
        for text, form in PAIRS:
            line = json_form.of_entry(literal(text))
            self.assertEqual(json.loads(line), form)
            (again,) = json_form.entries(line)
            self.assertEqual(print_literal(again.graph), print_literal(literal(text)))

    def test_random_entries_come_back(self) -> None:
        frames = random_frames(1, 400)
        lines = [json_form.of_entry(it) for it in frames]
        for text in ("\n".join(lines), "[" + ",\n".join(lines) + "]", " ".join(lines)):
            again = json_form.entries(text)
            self.assertEqual(len(again), len(frames))
            self.assertTrue(all(is_same(one, other.graph) for one, other in zip(frames, again)))

    def test_what_is_no_entry_is_told(self) -> None:
        for text, reason in BAD_JSON:
            with self.assertRaises(Failed) as told:
                json_form.entries(text)
            self.assertIn(reason, str(told.exception), text[:60])

    def test_false_and_long_forms_are_read(self) -> None:
        (found,) = json_form.entries('\n\t{"a": false, "A1": {"$symbol": "a"}}\n')
        self.assertEqual(print_literal(found.graph), "{a: nil, A1: 'a}")


class Csv(Playing):
    def test_each_cell_has_its_value(self) -> None:
        for row, text in ROWS:
            (found,) = csv_form.entries(CSV + row + "\r\n")
            self.assertEqual(print_literal(found.graph), text)
        rows = csv_form.entries(CSV + "\n".join(row for row, _ in ROWS))
        entries = tuple(Entry(uid, 0, it.graph, 1) for uid, it in enumerate(rows))
        table = csv_form.Table(entries, False)
        again = csv_form.entries("".join(table.lines()))
        self.assertEqual(table.left_out, [])
        self.assertTrue(all(is_same(one.graph, other.graph) for one, other in zip(rows, again)))

    def test_cells_that_are_no_plain_text_are_literals(self) -> None:
        rows = ('{a: "x", b: 1}', '{a: "", b: nil}', '{a: "\\\\n", b: -2}', "{a: 'x, b: \"1\"}", "{b: 3}")
        entries = tuple(Entry(uid, 0, literal(it), 1) for uid, it in enumerate(rows))
        table = csv_form.Table(entries, False)
        lines = ["a,b:int", "x,1", '"\\""""",\\nil', '"\\""\\\\n""",-2', '\\\'x,"\\""1"""', ",3"]
        self.assertEqual("".join(table.lines()).splitlines(), lines)
        self.assertEqual(table.left_out, [])

    def test_random_entries_come_back_or_are_told(self) -> None:
        for seed in range(60):
            frames = random_frames(seed, 6)
            table = csv_form.Table(tuple(Entry(uid, 0, it, 1) for uid, it in enumerate(frames)), True)
            text = "".join(table.lines())
            told = {int(it.split(":")[0].split()[-1]) for it in table.left_out}
            again = csv_form.entries(text)
            kept = [it for uid, it in enumerate(frames) if uid not in told]
            self.assertEqual(len(again), len(kept))
            self.assertTrue(all(is_same(one, other.graph) for one, other in zip(kept, again)))

    def test_what_is_no_row_is_told(self) -> None:
        for text, reason in BAD_CSV:
            with self.assertRaises(Failed) as told:
                csv_form.entries(text)
            self.assertIn(reason, str(told.exception), text)

    def test_no_more_is_told_than_a_person_reads(self) -> None:
        entries = ["add 0 S {a: 1, b: 2}"] + ["add 0 S {b: 2, a: 1}"] * 23
        self.card("card", "soup 0 S", *entries, blocks=20)
        told = self.tool("dump", "--csv", "S", "card").told.splitlines()
        self.assertEqual((len(told), told[-1]), (21, "dump: left out: and 3 more"))

    def test_headings_of_other_programs_are_names(self) -> None:
        (found,) = csv_form.entries("First Name,a:b,E-mail\nAda,1,x@y\n")
        self.assertEqual(print_literal(found.graph), '{|First Name|: "Ada", |a:b|: "1", |E-mail|: "x@y"}')

    def test_what_csv_can_not_say_is_told(self) -> None:
        self.card("card", "soup 0 S", 'add 0 S {a: "x", b: 1}', 'add 0 S {b: 2, a: "y"}', "add 0 S #1={a: #1#}")
        ended = self.tool("dump", "--csv", "S", "card")
        self.assertEqual((ended.status, ended.output), (1, "a,b:int\nx,1\n"))
        self.assertEqual(ended.told.count("left out"), 2)
        self.assertIn("the entry 1: its slots stand in another order than the columns", ended.told)


class Cards(Playing):
    def soup(self, name: str, *words: str) -> str:
        return self.tool("dump", "--json", name, *words, "card").output

    def test_a_soup_comes_back_through_each_form(self) -> None:
        entries = [f"add 0 S {print_literal(it)}" for it in random_frames(7, 30)]
        self.card("card", "soup 0 S", "time 77", *entries, blocks=80)
        told = [json.loads(it) for it in self.soup("S", "--ids").splitlines()]
        for form in ("json", "csv"):
            data = self.tool("dump", f"--{form}", "S", "--ids", "card")
            ended = self.tool("load", f"--{form}", "--make", "card", form, given=data.output)
            self.assertEqual((ended.status, ended.told), (0, ""))
            left_out = {int(it.split(":")[2].split()[-1]) for it in data.told.splitlines()}
            again = [json.loads(it) for it in self.soup(form, "--ids").splitlines()]
            wanted = [(it["time"], it["frame"]) for it in told if it["$entry"] not in left_out]
            self.assertEqual([(it["time"], it["frame"]) for it in again], wanted)

    def test_entries_are_added_with_the_minute_that_is_asked_for(self) -> None:
        self.card("card", "soup 0 S", "add 0 S {a: 1}")
        ended = self.tool("load", "--json", "--time", 64_000_000, "card", "S", given='{"a": 2}')
        self.assertEqual(ended, (0, "card: 1 entry was added to the soup S: ids 1 to 1\n", ""))
        self.assertIn("ok 64000000 {a: 2}", self.newton("run", "card", given="mount 0\nget 0 S 1\n"))
        self.assertEqual(self.tool("load", "--csv", "card", "S", given="\ufeffa:int\n3\n").status, 0)
        reply = self.newton("run", "card", given="mount 0\nget 0 S 2\n").splitlines()[1]
        self.assertGreater(int(reply.split()[1]), 64_000_000)

    def test_all_entries_are_added_or_none(self) -> None:
        self.card("card", "soup 0 S", "add 0 S {a: 1}")
        before = self.soup("S")
        many = "\n".join(f'{{"a": {number}, "b": "{"x" * 300}"}}' for number in range(60))
        ended = self.tool("load", "--json", "card", "S", given=many)
        self.assertEqual((ended.status, ended.output), (1, ""))
        self.assertIn("error 33 full", ended.told)
        self.assertIn("taken back", ended.told)
        self.assertEqual(self.soup("S"), before)
        ended = self.tool("load", "--json", "--make", "card", "T", given=many)
        self.assertEqual(ended.status, 1)
        self.assertIn("has no soup T", self.tool("dump", "--json", "T", "card").told)
        self.assertTrue(self.newton("check", "card").startswith("ok clean 1 1 "))

    def test_where_the_card_fails_it_is_told_what_stays(self) -> None:
        self.card("card", "soup 0 S")
        many = "\n".join(f'{{"a": {number}, "b": "{"x" * 900}"}}' for number in range(8))
        load = f"{sys.executable} {TOOLS / 'load'} --json card S"
        ended = self.ran(["bash", "-c", f"trap '' XFSZ; ulimit -f 20; {load}"], many)
        self.assertEqual((ended.status, ended.output), (1, ""))
        count = len(self.soup("S").splitlines())
        self.assertIn("error 50 device 0", ended.told)
        self.assertIn(f"{count} commands would take back the rest", ended.told)

    def test_nothing_is_written_where_something_is_wrong(self) -> None:
        card = self.card("card", "soup 0 S")
        self.blank("blank")
        (self.folder / "text").write_bytes(b"hello")
        before = card.read_bytes()
        for words, given, told in (
            (("card", "S"), '{"a": 1} {', "column"),
            (("card", "S"), b"\xff", "UTF-8"),
            (("card", "T"), "{}", "--make"),
            (("card", "a\nb"), "{}", "no name of a soup"),
            (("blank", "S"), "{}", "no store that can be read"),
            (("text", "S"), "{}", "whole blocks"),
            (("none", "S"), "{}", "can't be read"),
            (("card", "S", "none"), "", "No such file"),
        ):
            ended = self.tool("load", "--json", *words, given=given)
            self.assertEqual((ended.status, ended.output), (1, ""), words)
            self.assertIn(told, ended.told)
        self.assertEqual(self.tool("load", "card", "S").status, 2)
        self.assertEqual(card.read_bytes(), before)
        self.assertEqual((self.folder / "blank").read_bytes(), bytes(53_248))
        self.assertEqual((self.folder / "text").read_bytes(), b"hello")
