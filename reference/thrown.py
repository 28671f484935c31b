"""Lets calls of the program's devices fail, and compares what it answers then and what it leaves.

usage: python3 reference/thrown.py PROGRAM FIRST COUNT TIMES

Random scripts with the seeds from FIRST on, COUNT of them, in which units are mounted again and again, are played over
one to four files, TIMES times each, and each time some random calls fail, reads as well as writes and syncs, by the
library torn.c. A card whose call fails is thrown out, and the run goes on: the reply is `error 50 device U`, as often
as calls failed. The reference keeps all worlds that the replies so far leave room for, each with the store of the card
before the command or after it. Each other reply is to be that of one of them, and after the script all files are to
read as the stores of one. It needs a C compiler, cc, and ends with 1 at the first difference, whose files stay.
"""

import re
import sys
from copy import copy
from dataclasses import replace
from random import Random
from typing import Iterator

from bench import Bench, Differs, over_seeds
from commands import answer
from images import is_same_store, store_of_image
from scripts import written
from world import Unit, World

BLOCKS = (13, 13, 14, 16, 24)
MOST_WORLDS = 1024


def copied(world: World) -> World:
    """Another world, over the same stores, which are values."""
    other = World([])
    other.units = [copy(it) for it in world.units]
    other.mounted, other.default, other.minute = set(world.mounted), world.default, world.minute
    other.cursors = [copy(it) for it in world.cursors]
    other.watches = [it and replace(it, notes=[*it.notes]) for it in world.watches]
    other.copies = [copy(it) for it in world.copies]
    return other


def throw_out(world: World, number: int) -> World:
    """The unit is not mounted any more; the mounted unit of the smallest number is the default where this one was."""
    world.mounted.discard(number)
    if world.default == number:
        world.default = min(world.mounted, default=None)
    world.settle()
    return world


def thrown(world: World, line: bytes, number: int) -> Iterator[World]:
    """The worlds after a command whose device failed on this unit: its store is as it was, or as the command makes it;
    a move to another unit has been made there, and is told as an add, before its own unit is written."""
    after = copied(world)
    answer(after, line)
    yield throw_out(copied(world), number)
    if after.units[number].store is world.units[number].store:
        return
    made = copied(world)
    if line.split()[:2] == [b"move", b"%d" % number]:
        for at, (unit, other) in enumerate(zip(made.units, after.units)):
            if unit and at != number:
                unit.store = other.store
        for watch, told in zip(made.watches, after.watches):
            if watch:
                watch.notes += [it for it in told.notes[len(watch.notes) :] if it.startswith("add ")]
        yield throw_out(copied(made), number)
    made.units[number].store = after.units[number].store
    yield throw_out(made, number)


def steps(world: World, line: bytes, reply: str) -> Iterator[World]:
    """The worlds that the program may be in after a reply."""
    fault = re.fullmatch(r"error 50 device ([0-7])", reply)
    if fault:
        yield from thrown(world, line, int(fault[1]))
    elif answer(world, line) == reply:
        yield world


def is_command(line: bytes) -> bool:
    return line.lstrip(b" \t")[:1] not in (b"", b"%", b"\r")


class Throws(Bench):
    """Runs in which calls fail, and the worlds that they may be in."""

    def run(self, script: list, failing: list[int], seed: int) -> list[str]:
        """The replies to a script over blank files, where these calls fail."""
        self.blank()
        fail = ",".join(map(str, failing))
        return self.replies(script, (0,), reads=1, fail=fail, seed=seed)[1]

    def follow(self, script: list, replies: list[str]) -> None:
        """Compares the replies, and what is left."""
        worlds = [World([Unit(it) for it in self.blocks])]
        asked = [it for it in script if is_command(it)]
        if len(replies) != len(asked):
            raise Differs(f"{len(replies)} replies to {len(asked)} commands")
        for at, (line, reply) in enumerate(zip(asked, replies)):
            worlds = [after for it in worlds for after in steps(it, line, reply)]
            if not worlds:
                raise Differs(f"reply {at} to {line!r}: {reply}")
            if len(worlds) > MOST_WORLDS:
                raise Differs(f"reply {at}: {len(worlds)} worlds")
        left = [store_of_image(it.read_bytes()) for it in self.files()]
        if not any(all(map(is_left, left, it.units)) for it in worlds):
            raise Differs("the files have other stores")
        self.counts["worlds left"] += len(worlds)


def is_left(store, unit) -> bool:
    if store is None or unit.store is None:
        return store is unit.store
    return is_same_store(store, unit.store)


def with_mounts(random: Random, script: list, units: int) -> list:
    """The script, with a mount of some unit every few lines."""
    lines = []
    for line in script:
        lines.append(line)
        if random.random() < 0.25:
            lines.append(b"mount %d" % random.randrange(units))
    return lines


def calls_to_fail(random: Random, first: int, calls: int) -> list[int]:
    """Some calls, now and then one after the other, or all from one on for a while."""
    failing = set()
    for _ in range(random.choice((1, 1, 2, 3, 6))):
        call = random.randint(first, calls)
        failing.update(range(call, call + random.choice((1, 1, 1, 2, 3, 20))))
    return sorted(failing)


def compared(bench: Throws, seed: int, times: int) -> None:
    random = Random(seed)
    bench.blocks = tuple(random.choice(BLOCKS) for _ in range(random.choice((1, 2, 2, 3, 4))))
    units = [Unit(it) for it in bench.blocks]
    script = written(random, World(units), len(units), random.choice((60, 120, 240)))[0]
    script = with_mounts(random, [it for it in script if it.split() != [b"quit"]], len(units))
    bench.follow(script, bench.run(script, [], seed))
    calls = bench.told()[0]
    for at in range(times):
        own = Random(f"{seed} {at}")
        # A unit whose first sync fails is not attached.
        failing = calls_to_fail(own, len(units) + 1, calls)
        try:
            replies = bench.run(script, failing, own.randrange(2**32))
            bench.follow(script, replies)
            failed, answered = bench.told()[1], sum(it.startswith("error 50 ") for it in replies)
            if failed != answered:
                raise Differs(f"{failed} calls failed, and {answered} replies tell it")
            bench.counts["failing calls"] += failed
        except Differs as fault:
            raise Differs(f"time {at}, calls {failing}: {fault}") from fault


if __name__ == "__main__":
    sys.exit(over_seeds(Throws, compared, *sys.argv[1:]))
