"""Finds what is left on a card, whatever its damage, and writes the script that puts it on a fresh one."""

import argparse
import gc
import signal
import sys
from pathlib import Path

from newton.found import find, store_of
from newton.history import size_of
from newton.image import BLOCK, read_image
from newton.salvaged import Choice, blocks_for, heading, script, told_fate

from backups import backup
from commands import MOST_INPUT
from replies import of_name
from streams import encode

TOO_LONG = "salvage: the script is longer than a run takes, and ends here: take --soup, or --backup"
LATER = """
The script goes to standard output, and `%` lines in it say what was found, where, and what has become of it. `time`,
`soup`, `index`, `tags`, `info`, `add`, `addx`, `set` and `vwrite` lines put it on a fresh card:

    salvage card > kept
    head -c BYTES /dev/zero > fresh      (the script says how many)
    newton run fresh < kept

It ends with 0 where an entry was found, with 1 where none was, and with 2 where the words or the file do not fit.
The image is only read.
"""


def read_words(words: list) -> argparse.Namespace:
    parser = argparse.ArgumentParser(
        prog="salvage", description=__doc__, epilog=LATER, formatter_class=argparse.RawDescriptionHelpFormatter
    )
    parser.add_argument("image", metavar="IMAGE", help="the file of a card, or what is left of it")
    parser.add_argument("--all", action="store_true", help="every version: earlier and removed ones in soups beside")
    parser.add_argument("--soup", metavar="NAME", help="only this soup, by its name or its signature")
    parser.add_argument("--bank", type=int, choices=(0, 1), help="only what this bank has")
    parser.add_argument("--unit", type=int, choices=range(8), default=0, help="the unit of the fresh card, 0 to 7")
    parser.add_argument("--blocks", type=int, metavar="N", help="how many blocks the card had, if the file was cut")
    parser.add_argument("--no-format", action="store_true", help="leave out `format` and `mount`")
    output = parser.add_mutually_exclusive_group()
    output.add_argument("--list", action="store_true", help="only say what was found, one line for each version")
    output.add_argument("--backup", action="store_true", help="write a stream for `newton restore`: ids stay")
    return parser.parse_args(words)


def listed(found, choice: Choice) -> list:
    """One line for each version."""
    kept = [it for it in found.all() if choice.soup in (None, found.soups[it.sig].name.decode(), str(it.sig))]
    names = {sig: of_name(soup.name) for sig, soup in found.soups.items()}
    return [f"{names[it.sig]} {it.uid}, minute {it.time}: {told_fate(found, it)}" for it in kept]


def written(found, choice: Choice, told: list) -> str:
    """The script, with what is told of the card before it. It ends where it is too long for any run."""
    blocks, length = blocks_for(found, choice), 0
    lines = [f"% {it}" for it in told]
    lines.append(f"% a fresh card of {blocks} blocks has room: head -c {blocks * BLOCK} /dev/zero > fresh")
    for line in script(found, choice):
        length += len(line) + 1
        if length > MOST_INPUT:
            print(TOO_LONG, file=sys.stderr)
            lines.append(f"% {TOO_LONG}")
            break
        lines.append(line)
    return "".join(f"{it}\n" for it in lines)


def has_backup(found) -> bool:
    """Whether the backup is no longer than an input may be."""
    return sum(size_of(it) for it in found.newest()) <= MOST_INPUT


def main(words: list) -> int:
    options = read_words(words)
    gc.disable()  # what is made is kept until the end
    signal.signal(signal.SIGPIPE, signal.SIG_DFL)
    try:
        data = Path(options.image).read_bytes()
    except OSError as fault:
        print(f"salvage: {options.image}: {fault.strerror}", file=sys.stderr)
        return 2
    found = find(read_image(data, options.blocks), options.bank)
    choice = Choice(options.unit, options.soup, options.all, not options.no_format)
    told = list(heading(found, options.image))
    print(f"salvage: {told[-1]}", file=sys.stderr)
    if options.backup and not has_backup(found):
        print("salvage: the backup is longer than an input may be", file=sys.stderr)
        return 1
    if options.backup:
        sys.stdout.buffer.write(encode(backup(store_of(found))))
    elif options.list:
        print("\n".join([*told, *listed(found, choice)]))
    else:
        sys.stdout.write(written(found, choice, told))
    return 0 if found.all() else 1
