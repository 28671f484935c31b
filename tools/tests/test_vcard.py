"""vCards: entries of an address book there and back, lines that are kept, and what no vCard says."""

import json

from literals import print_literal, read_literal
from newton import json_form, vcard_form
from newton.run import Failed
from newton.vcard_lines import folded
from playing import Playing
from stores import Entry

CARDS = """BEGIN:VCARD\r
VERSION:3.0\r
N:Kern;Ada;;Dr.;\r
FN:Dr. Ada Kern\r
ORG:Mill;Flour\r
TITLE:Miller\\, retired\r
TEL;TYPE=HOME,VOICE:55 12\r
TEL;TYPE=cell:55 13\r
item1.TEL:55 14\r
EMAIL:ada@example.org\r
ADR;TYPE=home:;;1 High Street;Ely;;CB7;England\r
NOTE:plays the cello\\nand si\r
 ngs\r
CATEGORIES:family,work\r
X-FOO;BAR="1;2":baz\r
PHOTO;ENCODING=b;TYPE=JPEG:AAECAw==\r
END:VCARD\r

begin:vcard
VERSION:4.0
N:Adler;Tom;;;
FN:Tommy
TEL;VALUE=uri;TYPE=home:tel:+1-555
NOTE:one
NOTE:two
PHOTO:data:image/png;base64,AAEC
END:VCARD
"""
FIRST = {
    "name": {"last": "Kern", "first": "Ada", "prefix": "Dr."},
    "company": "Mill",
    "department": "Flour",
    "title": "Miller, retired",
    "phones": [
        {"kind": [{"$symbol": "home"}, {"$symbol": "voice"}], "number": "55 12"},
        {"kind": {"$symbol": "cell"}, "number": "55 13"},
    ],
    "emails": [{"address": "ada@example.org"}],
    "addresses": [
        {
            "kind": {"$symbol": "home"},
            "street": "1 High Street",
            "city": "Ely",
            "postalCode": "CB7",
            "country": "England",
        }
    ],
    "note": "plays the cello\rand sings",
    "group": [{"$symbol": "family"}, {"$symbol": "work"}],
    "photo": {"$large": "00010203", "class": "jpeg"},
    "vCard": ["item1.TEL:55 14", 'X-FOO;BAR="1;2":baz'],
}
SECOND = {
    "name": {"last": "Adler", "first": "Tom"},
    "fullName": "Tommy",
    "note": "one",
    "photo": {"$large": "000102", "class": "png"},
    "vCard": ["VERSION:4.0", "TEL;VALUE=uri;TYPE=home:tel:+1-555", "NOTE:two"],
}
BAD = [
    ("N:a\n", "line 1: a line before a card"),
    ("BEGIN:VCARD\nVERSION:3.0\n", "line 1: this card has no END:VCARD"),
    ("BEGIN:VCARD\nVERSION:2.1\nEND:VCARD\n", "line 1: a card of the version 3.0 or 4.0"),
    ("\nBEGIN:VCARD\nVERSION:3.0\nhello\nEND:VCARD\n", "line 4: no name with a colon"),
    ("BEGIN:VCARD\nBEGIN:VCARD\n", "line 2: a card within a card"),
    ("END:VCARD\n", "line 1: no card has begun"),
]


class Vcards(Playing):
    def read(self, text: str) -> list:
        return [json.loads(json_form.of_entry(it.graph)) for it in vcard_form.entries(text)]

    def test_each_line_has_its_slot(self) -> None:
        self.assertEqual(self.read(CARDS), [FIRST, SECOND])

    def test_cards_come_back(self) -> None:
        found = vcard_form.entries(CARDS)
        texts = vcard_form.Cards(tuple(Entry(uid, 0, it.graph, 1) for uid, it in enumerate(found)))
        again = vcard_form.entries("".join(texts.texts()))
        self.assertEqual(texts.left_out, [])
        self.assertEqual([print_literal(it.graph) for it in again], [print_literal(it.graph) for it in found])

    def test_lines_as_others_write_them_come_back(self) -> None:
        text = (
            "BEGIN:VCARD\r\nVERSION:3.0\r\nN;CHARSET=UTF-8:Kern;Ada\r\nFN:Kern, Ada\r\nTEL;type=CELL;type=pref:1\r\n"
            "URL:http\\://a.b\r\nNICKNAME:a,b\r\nADR:;;a,b;;;;\r\nORG:Mill;\r\n"
            "PHOTO;VALUE=uri:http://a\r\nEND:VCARD\r\n"
        )
        (found,) = self.read(text)
        wanted = {
            "fullName": "Kern, Ada",
            "company": "Mill",
            "phones": [{"kind": [{"$symbol": "cell"}, {"$symbol": "pref"}], "number": "1"}],
            "url": "http://a.b",
            "vCard": ["N;CHARSET=UTF-8:Kern;Ada", "NICKNAME:a,b", "ADR:;;a,b;;;;", "PHOTO;VALUE=uri:http://a"],
        }
        self.assertEqual(found, wanted)
        (entry,) = vcard_form.entries(text)
        card, unsaid = vcard_form.of_entry(entry.graph)
        self.assertEqual((self.read(card), unsaid), ([wanted], []))
        self.assertEqual([card.count(it) for it in ("\nN:", "\nN;", "\nFN:")], [0, 1, 1])

    def test_a_line_is_folded_between_characters(self) -> None:
        text = "NOTE:" + "\u65e5\u672c" * 60 + "\U0001f600" * 30
        pieces = folded(text)
        self.assertTrue(all(len(it.encode()) <= 75 for it in pieces.split("\r\n")))
        self.assertEqual(pieces.replace("\r\n ", "").rstrip("\r\n"), text)

    def test_what_is_no_card_is_told(self) -> None:
        for text, reason in BAD:
            with self.assertRaises(Failed) as told:
                vcard_form.entries(text)
            self.assertIn(reason, str(told.exception))

    def test_what_no_card_says_is_told(self) -> None:
        for literal, unsaid in (
            ('{name: {first: "Ines", last: "Kern"}, group: \'family, note: "plays the cello"}', []),
            ('{note: "a\\u000Ab;\\\\,", name: {last: "x"}}', []),
            ("{photo: <<jpeg:0001>>}", []),
            ('{name: {first: "a", nick: "b"}, done: true, note: "x"}', ["name", "done"]),
            ("{group: ['a, 1], phones: [\"x\"], fullName: 5}", ["group", "phones", "fullName"]),
            ('{vCard: ["END:VCARD", "X-A:1"]}', ["vCard"]),
            ('{note: "\\uD800"}', ["note"]),
            ('#1={note: "x", me: #1#}', ["me"]),
        ):
            _, found = vcard_form.of_entry(read_literal(literal.encode()))
            self.assertEqual(found, unsaid, literal)

    def test_an_address_book_goes_through_a_card(self) -> None:
        self.card("card", blocks=20)
        self.assertEqual(self.tool("load", "--vcard", "--make", "card", "Names", given=CARDS).status, 0)
        ended = self.tool("dump", "--vcard", "Names", "card")
        self.assertEqual((ended.status, ended.told), (0, ""))
        self.assertEqual(self.tool("load", "--vcard", "--make", "card", "Again", given=ended.output).status, 0)
        one, other = (self.tool("dump", "--json", name, "card").output for name in ("Names", "Again"))
        self.assertEqual(one, other)
        self.tool("load", "--json", "card", "Again", given='{"name": {"last": "X"}, "size": 5}')
        ended = self.tool("dump", "--vcard", "Again", "card")
        self.assertEqual((ended.status, ended.told), (1, "dump: left out: of the entry 2 the slots size\n"))
