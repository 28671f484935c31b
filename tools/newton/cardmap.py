"""The map of a card: what lies in each byte of its banks, and how full they are."""

from newton.found import Fate
from newton.image import BLOCK, HEADER, PUT, Bank, Image, Kind
from newton.views import Card

LIVE, OLDER, PAST, DAMAGED, FREE = range(5)
PLACED = ("header", "record", "payload")  # layers of `check` whose place is a byte
OF_OBJECTS = ("object", "entry", "large")


def rows_by_place(card: Card) -> dict[int, int]:
    """The row of the version that a page holds: the newest that it is part of."""
    rows: dict[int, int] = {}
    for version in card.versions:
        for it in (*version.copies, version):
            rows.update({page.place: card.rows[id(version)] for page in it.all_pages()})
    return rows


def live_places(card: Card) -> set[int]:
    """Where the pages of the newest versions lie, and those of the newest directory."""
    found = card.found
    live = {page.place for it in found.newest() for page in it.all_pages()}
    return live | {it.place for it in found.history.state.by_number.values() if it.object == 0}


def damaged_object(report: str) -> int:
    """The object that `check` names, or none."""
    words = report.split()
    return int(words[3]) if len(words) == 4 and words[2] in OF_OBJECTS else -1


def damaged_place(report: str) -> int:
    """The byte that `check` names, or none."""
    words = report.split()
    is_placed = len(words) == 4 and words[2] in (*PLACED, "votes")
    return int(words[3]) if is_placed else -1


def pages_told(card: Card, bank: Bank, rows: dict[int, int], live: set[int]) -> list[list[int]]:
    """Each page of a bank: its place, its state, its row, its object and its part."""
    bad = damaged_object(card.report)
    unread = {it.place for it in card.found.unread()}
    told = []
    for record in bank.records:
        for page in record.puts:
            state = PAST if record.kind is not Kind.JOURNAL else LIVE if page.place in live else OLDER
            if page.object == bad and state == LIVE or page.place in unread:
                state = DAMAGED
            told.append([page.place, state, rows.get(page.place, -1), max(page.object, -1), page.part])
        told += [[at, DAMAGED, -1, -1, 0] for at in record.bad if at not in rows]
    return sorted(told)


def fullness(bank: Bank, told: list[list[int]]) -> list[int]:
    """Bytes of each state. The heads of records and their deletes count as older."""
    sizes = [sum(PUT for it in told if it[1] == state) for state in range(5)]
    used = sum(it.end - it.place for it in bank.records)
    sizes[OLDER] += max(0, used - sum(sizes)) + (HEADER if bank.version else 0)
    sizes[DAMAGED] += sum(end - begin for begin, end in bank.damage)
    sizes[FREE] = max(0, bank.end - bank.start - sum(sizes))
    return sizes


def bank_told(card: Card, bank: Bank, rows: dict[int, int], live: set[int]) -> dict:
    pages = pages_told(card, bank, rows, live)
    banks = card.found.banks
    return {
        "number": bank.number,
        "start": bank.start,
        "end": bank.end,
        "version": bank.version,
        "newer": bool(banks) and bank is banks[-1],
        "journal": bank.journal_end,
        "records": [[it.place, it.end, it.kind.value] for it in bank.records],
        "damage": bank.damage,
        "pages": pages,
        "sizes": fullness(bank, pages),
    }


def card_told(card: Card) -> dict:
    """What a page shows of a card beside its entries."""
    image: Image = card.found.image
    rows, live = rows_by_place(card), live_places(card)
    fates = [card.found.fate(it) for it in card.versions]
    directory = card.found.directory()
    return {
        "file": card.name,
        "store": directory.name.decode() if directory else None,
        "signature": directory.sig if directory else None,
        "bytes": len(image.data),
        "blocks": image.blocks,
        "block": BLOCK,
        "votes": image.votes,
        "chosen": image.chosen(),
        "check": card.report,
        "place": damaged_place(card.report),
        "fates": {it.value: fates.count(it) for it in Fate},
        "banks": [bank_told(card, bank, rows, live) for bank in image.banks],
    }
