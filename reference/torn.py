"""Stops the program at random writes and syncs, as a power cut would, and compares what the next run finds.

usage: python3 reference/torn.py PROGRAM FIRST COUNT STOPS

Random scripts with the seeds from FIRST on, COUNT of them, are played over one to three files, each stopped at STOPS
random calls by the library torn.c, which leaves any bytes in what no sync has reached. Then the next run lists each
store, goes on with another random script, and is stopped as well; a third one lists what is left. After each stop each
file is to read as its store after the commands whose replies had begun or after one more, by the reference's reader of
images and by what the program lists. A file without a store keeps its bytes. It needs a C compiler, cc, and ends with 1
at the first difference, whose files stay.
"""

import sys
from random import Random
from typing import NamedTuple, Optional

from bench import Bench, Differs, over_seeds
from commands import answer
from images import BLOCK, HEADER, bank_of, is_same_store, payloads, store_of_image
from replies import of_name
from scripts import written
from stores import Store
from world import Unit, World

BLOCKS = (13, 13, 13, 14, 16, 24)
STOPPED = 77

Stores = tuple


class Played(NamedTuple):
    """A script, the reply to each of its commands, and the stores before the first and after each."""

    script: list
    replies: list
    stores: list


def played(blocks: tuple, stores: Stores, script: list) -> Played:
    units = [Unit(*it) for it in zip(blocks, stores)]
    world, replies, known = World(units), [], [stores]
    for line in script:
        reply = answer(world, line)
        if reply is not None:
            replies.append(reply)
            known.append(tuple(it.store for it in units))
    return Played(script, replies, known)


def listing(stores: Stores, more: Stores) -> list:
    """A script that mounts each store in turn and shows all of it; some entries may be those of another store."""
    lines = []
    for number, (store, other) in enumerate(zip(stores, more)):
        lines.append(f"mount {number}")
        if store is None:
            continue
        lines.append(f"soups {number}")
        for soup in store.soups:
            where = f"{number} {of_name(soup.name)}"
            before = other.soup(soup.name) if other else None
            uids = {it.uid for it in soup.entries} | {it.uid for it in (before.entries if before else ())}
            lines += [f"indexes {where}", f"tags {where}", *[f"getx {where} {it}" for it in sorted(uids)]]
        lines.append(f"unmount {number}")
    return [it.encode() for it in lines]


class Stops(Bench):
    """Runs that are stopped, and what they leave."""

    def stopped(self, wanted: Played, stop: int, random: Random) -> Stores:
        """Plays a script, stopped at a call, and gives the stores that are left."""
        before = self.images()
        seed = random.randrange(2**32)
        status, found = self.replies(wanted.script, (0, STOPPED), stop=stop, seed=seed)
        is_stopped = status == STOPPED
        if found != wanted.replies[: len(found)] or not is_stopped and len(found) < len(wanted.replies):
            at = next((at for at, pair in enumerate(zip(found, wanted.replies)) if pair[0] != pair[1]), len(found))
            raise Differs(f"reply {at}: {found[at : at + 1]}, wanted {wanted.replies[at : at + 1]}")
        self.counts["stops"] += is_stopped
        last = wanted.stores[len(found)]
        after = wanted.stores[len(found) + 1] if is_stopped and len(found) < len(wanted.replies) else last
        return tuple(map(self.left, range(len(self.blocks)), before, self.images(), last, after))

    def left(self, number: int, before: bytes, image: bytes, last: Optional[Store], after: Optional[Store]):
        """The store that is left on a unit, which was the one or the other."""
        if last is None and after is None:
            if image != before:
                raise Differs(f"unit {number} has no store, and other bytes")
            return store_of_image(image)
        self.counts["images"] += 1
        self.counts["votes that differ"] += len({image[BLOCK * at] for at in range(3)}) > 1
        found = store_of_image(image)
        if last is None:
            # Before its reply nothing is said of a unit that is being formatted.
            self.counts["stopped formats"] += 1
            return found
        for wanted in (after, last):
            if found is not None and is_same_store(found, wanted):
                self.counts["torn tails"] += has_torn_tail(image)
                self.counts["one command more"] += wanted is after and after is not last
                return wanted
        raise Differs(f"unit {number} has another store: {found}")


def has_torn_tail(image: bytes) -> bool:
    used = len(HEADER) + sum(5 + len(it) for it in payloads(image))
    return bool(bank_of(image)[used:].strip(b"\xff"))


def cut(bench: Stops, random: Random, first: Played, stop: int) -> None:
    """Stops a script over blank files, the run that goes on with what is left, and looks at what is left then."""
    bench.blank()
    other = first.stores[-1]
    stores = bench.stopped(first, stop, random)
    world = World([Unit(*it) for it in zip(bench.blocks, stores)])
    lines = listing(stores, other) + written(random, world, len(stores), 0)[0]
    second = played(bench.blocks, stores, lines)
    left = bench.stopped(second, random.randint(1, random.choice((60, 400))), random)
    bench.stopped(played(bench.blocks, left, listing(left, stores)), 0, random)


def compared(bench: Stops, seed: int, stops: int) -> None:
    random = Random(seed)
    bench.blocks = tuple(random.choice(BLOCKS) for _ in range(random.choice((1, 2, 2, 3))))
    units = [Unit(it) for it in bench.blocks]
    script = written(random, World(units), len(units), random.choice((60, 60, 120)))[0]
    wanted = played(bench.blocks, (None,) * len(units), script)
    bench.blank()
    bench.stopped(wanted, 0, random)
    calls = bench.told()[0]
    bench.counts["calls"] += calls
    for at in range(stops):
        own = Random(f"{seed} {at}")
        stop = own.randint(1, calls)
        try:
            cut(bench, own, wanted, stop)
        except Differs as fault:
            raise Differs(f"stop {at} at call {stop}: {fault}") from fault


if __name__ == "__main__":
    sys.exit(over_seeds(Stops, compared, *sys.argv[1:]))
