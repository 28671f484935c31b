"""`where`: places and reasons of mistakes, and that it finds one exactly where `newton` answers an error."""

from random import Random

from newton import literal_mistakes, script_mistakes, stream_mistakes
from newton.run import is_command
from playing import TOP, Playing
from values import Values

# Literals with a mistake, the caret under each, and a word of the reason.
LITERALS = [
    ('{title: "Milk" done: nil}', 15, "comma"),
    ("{a: 1, A: 2}", 7, "already"),
    ("{a 1}", 3, "colon"),
    ("{'a: 1}", 1, "name"),
    ("{a: 1", 0, "closed"),
    ("[1, 2", 0, "closed"),
    ("[1,,2]", 3, "value"),
    ("[1, ]", 4, "value"),
    ("[1.5]", 2, "real"),
    ('"abc', 0, "closed"),
    (r'"a\qb"', 2, "quote"),
    ('"a\tb"', 2, "u0009"),
    ("false", 0, "nil and true"),
    ("536870912", 0, "integer"),
    ("[12345678901]", 1, "integer"),
    ("-", 0, "digits"),
    ("#1=5", 3, "label"),
    ("#2#", 0, "nowhere"),
    ('[#1="x", #1="y"]', 9, "twice"),
    ("#a", 0, "label"),
    ("<a:0>", 4, "odd"),
    ("<a:0g>", 4, "'g'"),
    ("<a 00>", 2, "colon"),
    ("<<a:00>", 6, ">>"),
    ("<<a:*12345678>>", 5, "7 digits"),
    ("<<a:*1000001>>", 5, "at most"),
    ("$", 0, "character"),
    ("&12", 0, "eight"),
    ("&00000001", 0, "pointer"),
    ("'|abc", 1, "bar"),
    ("'||", 1, "254"),
    ("", 0, "the end"),
    ("1 2", 2, "ends before"),
    ("[" * 201 + "]" * 201, 200, "open"),
]
STREAMS = [
    ("0C", 0, "02"),
    ("02", 2, "early"),
    ("020D", 2, "tags"),
    ("020905", 4, "number"),
    ("020601070161", 12, "early"),
    ("0206020701610701410004", 12, "already"),
    ("02060108", 6, "07 or 09"),
    ("0207017F", 6, "20 to 7E"),
    ("020700", 6, "254"),
    ("0208030041", 4, "even"),
    ("02080400410042", 10, "00"),
    ("020001", 4, "pointer"),
    ("02050101000A", 10, "ends before"),
    ("0205FFFFFFFFFF", 4, "count"),
    ("02030501", 6, "07 or 09"),
    ("020C0701610000 0F4241".replace(" ", "") + "00" * 12, 12, "at most"),
    ("020C0703666F6F010000000100000000000000000000000041", 2, "compressed"),
    ("02" + "0501" * 201 + "0A", 2 + 4 * 200, "open"),
    ("0", 0, "odd"),
    ("02 0A", 2, "digit"),
]
SCRIPT = [
    ('add 0 Notes {title: "Bread", done: nill}', 35, "nil"),
    ("monut 0", 0, "10"),
    ("get 0 Notes x", 12, "get U S UID"),
    ("vwrite 0 Notes 1 a.b 4 0g", 24, "digit"),
    ("vwrite 0 Notes 1 a.b 4 00FF", None, ""),
    ("mount 0 1", 8, "mount U"),
    ("lit", 3, "lit LIT"),
    ("info 0 Notes", None, ""),
    (' info 0 "a b" {a 1}', 17, "colon"),
    ("addx 0 Notes 020905", 17, "number"),
    ("% {", None, ""),
]
MARKS = "{}[]<>:,'\"|#$&\\*- 0aA1\u00e4"
COUNT = 1500


class Where(Playing):
    def check(self, found, wanted: tuple) -> None:
        text, place, reason = wanted
        if place is None:
            self.assertIsNone(found, text)
        else:
            self.assertIsNotNone(found, text)
            self.assertEqual(found.place, place, f"{text}: {found}")
            self.assertIn(reason, found.reason, text)

    def test_each_mistake_of_a_literal_has_its_place(self) -> None:
        for wanted in LITERALS:
            self.check(literal_mistakes.mistake_in(wanted[0].encode()), wanted)

    def test_each_mistake_of_a_stream_has_its_place(self) -> None:
        for wanted in STREAMS:
            self.check(stream_mistakes.mistake_in_digits(wanted[0]), wanted)

    def test_each_mistake_of_a_line_has_its_place(self) -> None:
        for wanted in SCRIPT:
            line = wanted[0].encode()
            self.check(None if line[:1] == b"%" else script_mistakes.in_words(line), wanted)

    def test_limits_have_their_places(self) -> None:
        for text, reason in (
            ("[" + "[]," * 65_534 + "[]]", "one object too many"),
            ("[" + "1," * 65_535 + "1]", "values"),
            ('"' + "a" * 500_000 + '"', "bytes"),
            ("[" + "<<a:*1000000>>," * 16 + "<<a:*777217>>]", "together"),
        ):
            found = literal_mistakes.mistake_in(text.encode())
            self.assertIn(reason, found.reason)

    def agrees(self, word: str, texts: list, mistake_in) -> int:
        """Compares each text with the reply to it, and counts the mistakes."""
        replies = self.newton("run", given="".join(f"{word} {it}\n" for it in texts)).splitlines()
        self.assertEqual(len(replies), len(texts))
        for text, reply in zip(texts, replies):
            found = mistake_in(text)
            self.assertEqual(found is None, reply.startswith("ok"), f"{text}: {reply}, {found}")
        return sum(it.startswith("error") for it in replies)

    def test_it_finds_a_mistake_where_the_program_answers_one(self) -> None:
        random = Random(66)
        literals, streams = [], []
        for _ in range(COUNT):
            text = list(Values(random).any_value())
            for _ in range(random.choice((0, 1, 1, 2))):
                at = random.randrange(len(text) + 1)
                text[at : at + random.choice((0, 1))] = random.choice(("", *MARKS))
            literals.append("".join(text).strip(" ") or "nil")
            streams.append(Values(random).stream())
        literals += [text for text, _, _ in LITERALS if text]
        streams += [text for text, _, _ in STREAMS]
        wrong = self.agrees("lit", literals, lambda it: literal_mistakes.mistake_in(it.encode()))
        self.assertGreater(wrong, COUNT // 4)
        self.agrees("nsof", streams, stream_mistakes.mistake_in_digits)

    def test_a_caret_stands_under_the_line(self) -> None:
        text = '{title: "Milk",\n done nil}\n'
        ended = self.tool("where", given=text)
        shown = "2:7: a colon is wanted after the name of a slot, not 'n'\n   done nil}\n        ^\n"
        self.assertEqual(ended, (1, shown, ""))
        self.assertEqual(self.tool("where", given="{a: 1}\n"), (0, "no mistake\n", ""))
        long = "[" + "1, " * 100 + "x, " + "1, " * 100 + "1]"
        reply, line, caret = self.tool("where", given=long).output.splitlines()
        self.assertEqual((reply.split()[0], line[caret.index("^")]), ("1:302:", "x"))
        self.assertLess(len(line), 90)

    def test_forms_are_told_apart(self) -> None:
        (self.folder / "stream").write_bytes(b"\x02\x09\x05")
        ended = self.tool("where", "stream")
        self.assertEqual(ended.status, 1)
        self.assertTrue(ended.output.startswith("byte 2: "))
        self.assertEqual(self.tool("where", "--hex", given="020A").status, 0)
        script = "mount 0\nlit {\r\n% {\nlit {}\n"
        self.assertTrue(self.tool("where", "--script", given=script).output.startswith("2:6: "))
        self.assertEqual(self.tool("where", "none").told, "where: none: No such file or directory\n")

    def test_in_the_stored_session_it_finds_what_was_refused(self) -> None:
        stored = TOP / "crates/newton"
        lines = [it for it in (stored / "stdin").read_bytes().split(b"\n") if is_command(it)]
        replies = (stored / "stdout").read_text().splitlines()
        for line, reply in zip(lines, replies):
            is_told = reply.startswith(("error 1 ", "error 2 ", "error 3 ", "error 10", "error 11"))
            self.assertEqual(script_mistakes.in_words(line) is not None, is_told, line)
