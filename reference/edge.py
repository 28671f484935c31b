"""What a person's machine does to the program at its edge, played over real files.

usage: python3 reference/edge.py PROGRAM

Standard streams that are closed; cards that another run has, that are no files, or have odd names; files that become
shorter or longer, disks that are full, file systems that are only read; signals and closed pipes; the largest cards; a
card that is the input; a block device. It prints what differs, and what this machine gives no leave to play; it ends
with 0 where nothing differs.
"""

import os
import resource
import select
import signal
import socket
import subprocess
import sys
import tempfile
import time
from contextlib import contextmanager
from itertools import product
from pathlib import Path
from typing import Callable, Iterator, NamedTuple, Optional, Union

BLOCK = 4096
LEAST, MOST = 13, 4099
MOST_SECONDS = 120
NO_UNIT, MOUNTED = b"error 20 unit\n", b"ok 9 Card\n"
# The backup of a store without soups: `Card`, of the signature 9.
FRESH = bytes.fromhex("020602" "07096469726563746F7279" "0707656E7472696573" "0501030C" "07056279746573") + (
    b"\x04Card" + bytes([0, 0, 0, 9, 0, 0, 0]) + b"\x05\x00"
)
FORMAT, MOUNT, ADD = b"format 0 Card 9\n", b"mount 0\n", b"add 0 Notes {}\n"
BEGIN = FORMAT + MOUNT + b"soup 0 Notes\n"
# An entry of 60,000 bytes.
LARGE_ADD = b'add 0 Notes {a: "%s"}\n' % (b"x" * 30_000)
# What each mode of a card is asked, and whether it reads an input.
ASKED = {"run": MOUNT, "check": b"", "backup": b"", "restore": FRESH}

Word = Union[str, bytes, Path]


class Ended(NamedTuple):
    """How a run ended: its exit number, or the signal as a negative one, and both of its outputs."""

    status: int
    told: bytes
    cause: bytes


class Edge:
    """The program over files in a folder, and what differed."""

    def __init__(self, program: Path, folder: Path) -> None:
        self.program, self.folder = program, folder
        self.wrong: list[str] = []
        self.left_out: list[str] = []

    def start(self, *words: Word, before: Optional[Callable[[], None]] = None, **streams: object) -> subprocess.Popen:
        return subprocess.Popen([self.program, *words], cwd=self.folder, preexec_fn=before, stderr=subprocess.PIPE,
                                **streams)

    def run(self, *words: Word, given: bytes = b"", before: Optional[Callable[[], None]] = None) -> Ended:
        """A whole run over this input, which is to end within some time."""
        source = self.folder / "given"
        source.write_bytes(given)
        with source.open("rb") as stdin:
            run = self.start(*words, before=before, stdin=stdin, stdout=subprocess.PIPE)
        try:
            told, cause = run.communicate(timeout=MOST_SECONDS)
        except subprocess.TimeoutExpired:
            run.kill()
            told, cause = run.communicate()
            self.wrong.append(f"{words}: it hangs")
        return Ended(run.returncode, told, cause)

    def want(self, what: object, found: object, wanted: object) -> None:
        if found != wanted:
            self.wrong.append(f"{what}: {found!r}, wanted {wanted!r}"[:1000])

    def ends(self, *words: Word, given: bytes = b"", told: bytes = b"", status: int = 0, cause: bytes = b"") -> None:
        self.want(words, self.run(*words, given=given), Ended(status, told, cause))

    def no_unit(self, name: Word) -> None:
        """No mode has a unit of this name."""
        for mode, given in ASKED.items():
            self.ends(mode, name, given=given, told=NO_UNIT)

    def blank(self, name: str, blocks: int = LEAST) -> Path:
        """A new file that is as long as so many blocks, and takes no room on the disk yet."""
        path = self.folder / name
        path.write_bytes(b"")
        os.truncate(path, blocks * BLOCK)
        return path

    def card(self, name: str, blocks: int = LEAST) -> Path:
        """A new file with a store that has the soup Notes."""
        path = self.blank(name, blocks)
        self.ends("run", name, given=BEGIN, told=b"ok\n" + MOUNTED + b"ok 0\n")
        return path

    def entries(self, name: Word) -> Optional[int]:
        """How many entries the store of a card has, and none where it has no store."""
        words = self.run("check", name).told.split()
        return int(words[3]) if words[:2] == [b"ok", b"clean"] else None


class Session:
    """A run over one card that is asked one line after the other."""

    def __init__(self, edge: Edge, name: Word, *lines: bytes) -> None:
        self.edge = edge
        self.process = edge.start("run", name, stdin=subprocess.PIPE, stdout=subprocess.PIPE)
        for line in lines:
            edge.want((name, line), self.answer(line)[:2], b"ok")

    def answer(self, line: bytes) -> bytes:
        self.process.stdin.write(line)
        self.process.stdin.flush()
        return self.process.stdout.readline()

    def end(self) -> None:
        told, cause = self.process.communicate()
        self.edge.want("a session", (self.process.returncode, told, cause), (0, b"", b""))


def closed_streams(edge: Edge) -> None:
    """Standard streams that are closed, in each mode: the exit number, its line, and what is left of the card."""
    card = edge.card("closed")
    before = card.read_bytes()
    modes = {"run closed": b"nsof 020A\n", "show": b"\2\12", "pack": b"nil", "restore closed": FRESH,
             "gen 1 9 closed": None, "backup closed": None, "check closed": None}
    for words, given in modes.items():
        left = None
        for streams in product((False, True), repeat=3):
            card.write_bytes(before)

            def close(streams: tuple[bool, ...] = streams) -> None:
                for number, is_closed in enumerate(streams):
                    if is_closed:
                        os.close(number)

            ended = edge.run(*words.split(), given=given or b"", before=close)
            # The first of them are all open.
            left = left or card.read_bytes()
            cause = "source" if given is not None and streams[0] else "sink" if streams[1] else ""
            line = f"newton: {cause}\n".encode() if cause and not streams[2] else b""
            wanted = ({"source": 5, "sink": 6, "": 0}[cause], line, True)
            edge.want(f"{words}, closed {streams}", (ended.status, ended.cause, card.read_bytes() == left), wanted)


def cards_in_use(edge: Edge) -> None:
    """Runs that want a card that another one has, by whatever name: they have no unit, and it loses nothing."""
    card = edge.card("shared")
    os.link(card, edge.folder / "hard")
    os.symlink("shared", edge.folder / "soft")
    first = Session(edge, "shared", MOUNT, ADD)
    for name in ("shared", "./shared", "hard", "soft"):
        edge.no_unit(name)
    edge.want("gen of a card in use", edge.run("gen", "1", "9", "shared").told.split()[:4],
              b"commands 28 ok 1".split())
    edge.want("the first run", first.answer(ADD), b"ok 1\n")
    edge.no_unit("shared")
    first.process.kill()
    first.process.communicate()
    # The lock has fallen, and one file is one unit.
    for name in ("./shared", "hard", "soft"):
        edge.ends("run", "shared", name, given=b"mount 0\nmount 1\nsoups 0\n",
                  told=MOUNTED + NO_UNIT + b"ok Notes 0 2\n")


def no_cards(edge: Edge) -> None:
    """What is no file whose bytes stay is no unit. It is not even opened: who waits at a fifo goes on waiting."""
    fifo = edge.folder / "fifo"
    os.mkfifo(fifo)
    os.mkdir(edge.folder / "folder")
    os.symlink("nothing", edge.folder / "nowhere")
    with socket.socket(socket.AF_UNIX) as listening:
        listening.bind(str(edge.folder / "socket"))
    reader = os.open(fifo, os.O_RDONLY | os.O_NONBLOCK)
    below = edge.card("plain") / "below"
    for name in ("", "missing", "nowhere", "folder", "socket", "fifo", below):
        edge.no_unit(name)
    for name in ("null", "zero", "full", "tty", "ptmx"):
        edge.no_unit(f"/dev/{name}")
    poll = select.poll()
    poll.register(reader)
    edge.want("a fifo that was opened for writing", poll.poll(0), [])
    os.close(reader)


def names(edge: Edge) -> None:
    """Paths as long as the system opens, longer ones, and names that are no UTF-8."""
    card = edge.card("Ünïts")
    for length, told in ((4095, MOUNTED), (4096, NO_UNIT), (4097, NO_UNIT), (70_000, NO_UNIT)):
        dots = length - len(card.name.encode())
        edge.ends("run", "./" * (dots // 2) + "/" * (dots % 2) + card.name, given=MOUNT, told=told)
    strange = os.fsencode(edge.folder) + b"/c\xffrd"
    os.rename(edge.blank("strange"), strange)
    for mode, given in ASKED.items():
        edge.ends(mode, b"c\xffrd", given=given, status=2, cause=b"newton: usage\n")


def lengths(edge: Edge) -> None:
    """A file that becomes longer or shorter under a run: the first is nothing, the second a card that fails."""
    longer = edge.card("longer")
    session = Session(edge, "longer", MOUNT, ADD)
    with longer.open("ab") as appended:
        appended.write(b"x" * 5000)
    edge.want("a longer card", session.answer(ADD), b"ok 1\n")
    session.end()
    edge.want("the bytes after it", longer.read_bytes()[LEAST * BLOCK :], b"x" * 5000)
    os.truncate(longer, LEAST * BLOCK)
    edge.want("its entries", edge.entries("longer"), 2)
    for size in (LEAST * BLOCK - 1, 4 * BLOCK, 0):
        shorter = edge.card("shorter")
        session = Session(edge, "shorter", MOUNT, ADD)
        os.truncate(shorter, size)
        edge.want(f"a card of {size} bytes", session.answer(ADD), b"error 50 device 0\n")
        edge.want("its next mount", session.answer(MOUNT), b"error 50 device 0\n")
        edge.want("what has no card", session.answer(b"nsof 020A\n"), b"ok 020A\n")
        session.end()
        edge.want("what was cut off", shorter.stat().st_size, size)


def asked_of_system(*command: Word) -> Optional[str]:
    """What a command of the system prints, and none where it is not there or there is no leave for it."""
    try:
        ran = subprocess.run(command, capture_output=True, text=True)
    except FileNotFoundError:
        return None
    return ran.stdout if ran.returncode == 0 else None


@contextmanager
def mounted(edge: Edge, what: str, *words: str) -> Iterator[Optional[Path]]:
    """A file system in a folder, and none where there is no leave to mount it."""
    place = edge.folder / what.replace(" ", "-")
    place.mkdir()
    if asked_of_system("mount", *words, place) is None:
        edge.left_out.append(what)
        yield None
        return
    try:
        yield place
    finally:
        subprocess.run(["umount", place], check=True)


def fills(edge: Edge, name: Word, before: Optional[Callable[[], None]] = None) -> None:
    """Adds until the card fails: the run goes on without it, and the store has what was answered for."""
    add = b'add 0 Notes {a: "%s"}\n' % (b"x" * 200)
    ended = edge.run("run", name, given=MOUNT + 40 * add + b"nsof 020A\n", before=before)
    lines = ended.told.splitlines()
    answered = sum(line.startswith(b"ok ") for line in lines[1:-1])
    told = (ended.status, lines[answered + 1 : answered + 2], lines[-1])
    edge.want(f"{name} filled", told, (0, [b"error 50 device 0"], b"ok 020A"))
    edge.want(f"{name}, its entries", edge.entries(name) in (answered, answered + 1), True)


def fill_up(other: Path) -> None:
    """A file that takes what room the disk has."""
    with other.open("wb", buffering=0) as file:
        try:
            while True:
                file.write(bytes(BLOCK))
        except OSError:
            pass


def full_disks(edge: Edge) -> None:
    """A disk that is full under a card whose blocks were never written, and a file that may not grow."""

    def little() -> None:
        signal.signal(signal.SIGXFSZ, signal.SIG_IGN)
        resource.setrlimit(resource.RLIMIT_FSIZE, (16_000, 16_000))

    edge.card("limited")
    fills(edge, "limited", little)
    with mounted(edge, "a small disk", "-t", "tmpfs", "-o", f"size={16 * BLOCK}", "none") as disk:
        if disk:
            sparse = edge.card("a-small-disk/sparse")
            fill_up(disk / "other")
            fills(edge, sparse)
            edge.ends("run", edge.blank("a-small-disk/second"), given=FORMAT, told=b"error 50 device 0\n")
            (disk / "other").unlink()
            Session(edge, sparse, MOUNT, ADD).end()


def read_only(edge: Edge) -> None:
    """A card that can't be written is no unit, in no mode."""
    card = edge.card("readable")
    before = card.read_bytes()
    if os.geteuid() == 0:
        edge.left_out.append("a file that its owner may not write (root may)")
    else:
        card.chmod(0o444)
        edge.no_unit("readable")
    (edge.folder / "written").mkdir()
    os.rename(card, edge.folder / "written" / "readable")
    with mounted(edge, "a file system that is only read", "-o", "bind,ro", str(edge.folder / "written")) as place:
        if place:
            edge.no_unit(place / "readable")
    edge.want("a card that is only read", (edge.folder / "written" / "readable").read_bytes() == before, True)


def stopped_scripts(edge: Edge) -> None:
    """A signal, or a pipe that is closed, within a long script: the next run finds what was answered for."""
    for how in (signal.SIGINT, signal.SIGTERM, signal.SIGHUP, None):
        edge.card("stopped", MOST)
        run = edge.start("run", "stopped", stdin=subprocess.PIPE, stdout=subprocess.PIPE)
        # They find room in the pipe, and the run waits after them.
        run.stdin.write(MOUNT + 2000 * ADD)
        run.stdin.flush()
        for _ in range(30):
            run.stdout.readline()
        answered = 29
        if how:
            run.send_signal(how)
            answered += len(run.stdout.read().splitlines())
        else:
            run.stdout.close()
        ended = (run.wait(), run.stderr.read())
        found = edge.entries("stopped")
        edge.want(f"stopped by {how}", ended, (-how, b"") if how else (6, b"newton: sink\n"))
        edge.want(f"stopped by {how}: {answered} answered, {found} found",
                  found is not None and answered <= found and (found <= answered + 1 or not how), True)
        run.stdin.close()


def large_cards(edge: Edge) -> None:
    """Cards of 16 MB: filled over more than a bank, checked, backed up and restored; and one block more."""
    removes = b"".join(b"remove 0 Notes %d\n" % uid for uid in range(20))
    large = edge.card("large", MOST)
    with large.open("ab") as appended:
        appended.write(b"x" * (BLOCK - 1))
    told = edge.run("run", "large", given=MOUNT + 130 * LARGE_ADD + removes + 20 * LARGE_ADD).told.splitlines()
    edge.want("a large card", told, [b"ok 9 Card", *(b"ok %d" % uid for uid in range(130)), *[b"ok"] * 20,
                                     *(b"ok %d" % uid for uid in range(130, 150))])
    edge.want("its entries", edge.entries("large"), 130)
    kept = edge.run("backup", "large").told
    edge.blank("restored", MOST)
    edge.ends("restore", "restored", given=kept, told=MOUNTED)
    edge.want("its backup", edge.run("backup", "restored").told == kept, True)
    edge.blank("larger", MOST + 1)
    for mode, given in {**ASKED, "run": FORMAT, "restore": kept}.items():
        edge.ends(mode, "larger", given=given, told=b"error 27 blocks\n")


def kept_stream(edge: Edge) -> Path:
    """The backup of a card with 20 large entries."""
    stream = edge.folder / "stream"
    if not stream.exists():
        edge.card("kept", MOST)
        edge.run("run", "kept", given=MOUNT + 20 * LARGE_ADD)
        stream.write_bytes(edge.run("backup", "kept").told)
    return stream


def stopped_restores(edge: Edge) -> None:
    """A signal within a restore: the card has no store, or the very one of the backup."""
    source = kept_stream(edge)
    kept = source.read_bytes()

    def restored(seconds: Optional[float], how: signal.Signals) -> bytes:
        """What a restore to a blank card tells that gets a signal after so many seconds, or none."""
        edge.blank("again", MOST)
        with source.open("rb") as stdin:
            run = edge.start("restore", "again", stdin=stdin, stdout=subprocess.PIPE)
        if seconds is not None:
            time.sleep(seconds)
            run.send_signal(how)
        return run.communicate()[0]

    began = time.monotonic()
    edge.want("a restore", restored(None, signal.SIGTERM), MOUNTED)
    whole = time.monotonic() - began
    for part, how in product((2, 3, 4, 5), (signal.SIGINT, signal.SIGTERM)):
        told = restored(whole * part / 6, how)
        has_store = edge.entries("again") is not None
        edge.want(f"a restore that is stopped: {told!r}, and a store: {has_store}", has_store or told == b"", True)
        edge.ends("restore", "again", given=kept, told=b"error 26 store\n" if has_store else MOUNTED)
        edge.want("its backup", edge.run("backup", "again").told == kept, True)


def broken_restores(edge: Edge) -> None:
    """A reply that nobody reads, and a stream that ends too early."""
    source = kept_stream(edge)
    kept = source.read_bytes()
    edge.blank("unread", MOST)
    reading, writing = os.pipe()
    os.close(reading)
    with source.open("rb") as stdin:
        run = edge.start("restore", "unread", stdin=stdin, stdout=writing)
    os.close(writing)
    ended = (run.wait(), run.stderr.read(), edge.run("backup", "unread").told == kept)
    edge.want("a reply that nobody reads", ended, (6, b"newton: sink\n", True))
    blank = edge.blank("cut")
    edge.ends("restore", "cut", given=kept[: len(kept) // 2], told=b"error 1 malformed\n")
    edge.want("a card that is not restored", blank.read_bytes() == bytes(LEAST * BLOCK), True)


def own_input(edge: Edge) -> None:
    """A card that is the input too: its bytes are read as any input is, and it stays what it is."""
    card = edge.card("own")
    before = card.read_bytes()
    for words, told in (("run own", None), ("restore own", b"error 1 malformed\n"), ("check own", b"ok clean 1 0 1\n"),
                        ("check /dev/stdin", b"ok clean 1 0 1\n")):
        with card.open("rb") as stdin:
            ran = subprocess.run([edge.program, *words.split()], stdin=stdin, capture_output=True, cwd=edge.folder)
        edge.want(f"{words}, of itself", (ran.returncode, told in (None, ran.stdout)), (0, True))
        edge.want(f"the card of {words}", card.read_bytes() == before, True)


def block_devices(edge: Edge) -> None:
    """A block device is a card of its length."""
    image = edge.blank("image")
    made = asked_of_system("losetup", "--find", "--show", image)
    if made is None:
        edge.left_out.append("a block device")
        return
    device = made.strip()
    try:
        edge.ends("run", device, given=BEGIN + ADD, told=b"ok\n" + MOUNTED + b"ok 0\nok 0\n")
        session = Session(edge, device, MOUNT)
        edge.no_unit(device)
        edge.want("a block device", session.answer(ADD), b"ok 1\n")
        session.end()
    finally:
        subprocess.run(["losetup", "--detach", device], check=True)
    edge.want("the file of a block device", edge.entries("image"), 2)


CHECKS = (closed_streams, cards_in_use, no_cards, names, lengths, full_disks, read_only, stopped_scripts, large_cards,
          stopped_restores, broken_restores, own_input, block_devices)


def main() -> int:
    with tempfile.TemporaryDirectory() as folder:
        edge = Edge(Path(sys.argv[1]).resolve(), Path(folder))
        for check in CHECKS:
            check(edge)
    for what in edge.left_out:
        print(f"left out: {what}")
    for line in edge.wrong:
        print(line)
    return 1 if edge.wrong else 0


if __name__ == "__main__":
    sys.exit(main())
