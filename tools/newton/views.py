"""The soups of several cards as tables: same-named ones beside one another, and each order in which a cursor walks."""

from collections import Counter
from dataclasses import dataclass, field
from typing import Iterator, NamedTuple, Optional

from newton.found import Fate, Found
from newton.history import Version, size_of

from graphs import Frame
from literals import print_literal
from queries import key_of, tags_of
from replies import of_path, of_spec
from stores import Soup, paths_of

MOST_COLUMNS = 6


@dataclass
class Card:
    """A card that is shown, and the rows of its versions."""

    name: str
    found: Found
    report: str
    versions: list[Version]
    graphs: list[Frame]
    first_row: int = 0
    rows: dict[int, int] = field(default_factory=dict)  # by the identity of a version

    def number_rows(self, first: int) -> None:
        self.first_row = first
        self.rows = {id(it): first + at for at, it in enumerate(self.versions)}

    def soups(self) -> list[Soup]:
        """The soups of the newest directory, and others of which entries are left."""
        return self.found.soups_of(self.versions)


class Member(NamedTuple):
    """The soup of one card that has a name."""

    card: Card
    soup: Soup

    def rows(self) -> Iterator[tuple[Version, Frame, int]]:
        for version, graph in zip(self.card.versions, self.card.graphs):
            if version.sig == self.soup.sig:
                yield version, graph, self.card.rows[id(version)]

    def now(self) -> list[tuple[Version, Frame, int]]:
        fates = (Fate.LIVE, Fate.LOST)
        return [it for it in self.rows() if self.card.found.fate(it[0]) in fates]

    def identity(self, version: Version) -> tuple[int, int, int]:
        _, signature = self.card.found.name_and_signature()
        return signature, self.soup.sig, version.uid


class Hit(NamedTuple):
    key: tuple
    identity: tuple
    row: int


def kinds_of(spec: tuple) -> list[tuple[str, str]]:
    return [(part.kind, part.order) for part in spec]


def is_carried(spec: tuple, soup: Soup) -> bool:
    return any(paths_of(spec) == paths_of(it) and kinds_of(spec) == kinds_of(it) for it in soup.specs)


def in_order(hits: list[Hit], spec: tuple) -> list[int]:
    """Rows as a cursor walks them: by their keys, then by their identities. A missing part stands first."""
    hits.sort(key=lambda it: it.identity)
    for at, part in reversed([*enumerate(spec)]):
        if part.order == "ascend":
            hits.sort(key=lambda it: (it.key[at] is not None, it.key[at]))
        else:
            hits.sort(key=lambda it: (it.key[at] is None, it.key[at]), reverse=True)
    return [it.row for it in hits]


def rows_by(members: list[Member], spec: tuple) -> list[int]:
    """The rows that have a key in an index, over the soups that carry it."""
    hits = []
    for member in members:
        for version, graph, row in member.now() if not spec or is_carried(spec, member.soup) else []:
            key = key_of(graph, spec or None)
            if key is not None:
                hits.append(Hit(key, member.identity(version), row))
    return in_order(hits, spec)


def columns(members: list[Member]) -> list[str]:
    """The slots that most entries have, in the order in which they stand there."""
    counts: Counter = Counter()
    names: dict[bytes, str] = {}
    entries = [graph for member in members for _, graph, _ in member.now()]
    for graph in entries:
        for tag in graph.tags:
            counts[tag.name.lower()] += 1
            names.setdefault(tag.name.lower(), tag.name.decode())
    most = [name for name, count in counts.most_common(MOST_COLUMNS) if 2 * count >= len(entries)]
    chosen = set(most or [name for name, _ in counts.most_common(3)])
    return [shown for name, shown in names.items() if name in chosen]


def tags_told(member: Member) -> Optional[dict]:
    soup = member.soup
    if soup.tags is None:
        return None
    counts = Counter(tag for _, graph, _ in member.now() for tag in tags_of(soup, graph))
    symbols = [[it.decode(), counts[it.lower()]] for it in soup.tags.symbols]
    return {"path": of_path(soup.tags.path), "symbols": symbols}


def soup_told(member: Member) -> dict:
    soup = member.soup
    return {
        "card": member.card.name,
        "signature": soup.sig,
        "count": len(member.now()),
        "next": soup.next_uid,
        "indexes": [*map(of_spec, soup.specs)],
        "tags": tags_told(member),
        "info": None if soup.info is None else print_literal(soup.info),
    }


def specs_of(members: list[Member]) -> dict[str, tuple]:
    """Each index that one of the soups has, by how it is written, without regard to the case of its paths."""
    found: dict[tuple, tuple] = {}
    for spec in (spec for member in members for spec in member.soup.specs):
        found.setdefault((paths_of(spec), tuple(kinds_of(spec))), spec)
    return {of_spec(spec): spec for spec in found.values()}


def view(name: str, members: list[Member]) -> dict:
    """The soups of a name as one table, in each of its orders."""
    by_id = rows_by(members, ())
    orders = [{"label": "in order of ids", "rows": by_id}]
    orders += [{"label": label, "rows": rows_by(members, spec)} for label, spec in specs_of(members).items()]
    others = [row for member in members for version, _, row in member.rows()]
    others = sorted(set(others) - set(by_id))
    sizes = {row: size_of(version) for member in members for version, _, row in member.now()}
    orders.append({"label": "the largest first", "rows": sorted(by_id, key=lambda it: -sizes[it])})
    if others:
        orders.append({"label": "earlier, removed and unfinished versions", "rows": others})
    return {"name": name, "soups": [soup_told(it) for it in members], "columns": columns(members), "orders": orders}


def views(cards: list[Card]) -> list[dict]:
    by_name: dict[str, list[Member]] = {}
    for card in cards:
        for soup in card.soups():
            by_name.setdefault(soup.name.decode(), []).append(Member(card, soup))
    return [view(name, members) for name, members in by_name.items()]
