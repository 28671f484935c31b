"""Runs `newton`: a mode at once, or a script whose commands are asked one at a time."""

import os
import shutil
import subprocess
import sys
from pathlib import Path
from typing import Callable, Iterator, NoReturn, Union

BUILT = Path(__file__).resolve().parents[2] / "crates/newton/out/newton"
NAME = Path(sys.argv[0]).name
FAILED = 1
MOST_SHOWN = 70
STATUSES = {
    2: "usage",
    3: "memory was refused",
    4: "the device failed",
    5: "the input can't be read",
    6: "the output can't be written",
    7: "the input is too long",
}

Word = Union[str, Path]


def shown(line: str) -> str:
    """A line, of which no more is told than a person reads."""
    return line if len(line) <= MOST_SHOWN else line[: MOST_SHOWN - 3] + "..."


class Failed(Exception):
    """What a tool was asked for can't be done; the message says why."""


class Refused(Failed):
    """`newton` answers a command with an error."""

    def __init__(self, command: str, reply: str):
        super().__init__(f"newton answers `{shown(command)}` with `{reply}`")
        self.reply = reply


def tell(message: str) -> None:
    """A line for the person, on standard error."""
    print(f"{NAME}: {message}", file=sys.stderr, flush=True)


def several(count: int, one: str, many: str) -> str:
    return f"{count} {one if count == 1 else many}"


def ended(body: Callable[[], int]) -> NoReturn:
    """Ends the tool with the number that its body gives, or with 1 after a message."""
    try:
        status = body()
        sys.stdout.flush()
    except BrokenPipeError:
        os.dup2(os.open(os.devnull, os.O_WRONLY), sys.stdout.fileno())
        status = FAILED
    except Failed as fault:
        tell(str(fault))
        status = FAILED
    except OSError as fault:
        tell(f"{fault.filename or 'input or output'}: {fault.strerror}")
        status = FAILED
    except KeyboardInterrupt:
        status = 130
    sys.exit(status)


def program() -> str:
    """The program: $NEWTON, else `newton` of the PATH, else the one that is built here."""
    named = os.environ.get("NEWTON") or shutil.which("newton")
    if named or BUILT.is_file():
        return str(named or BUILT)
    raise Failed("no newton: name the program in the variable NEWTON, or put it in the PATH")


def started(*words: Word) -> subprocess.Popen:
    """A run, with the signals that this tool ignores: where a file can't grow, the reply says so."""
    pipe, command = subprocess.PIPE, [program(), *map(str, words)]
    try:
        return subprocess.Popen(command, stdin=pipe, stdout=pipe, restore_signals=False)
    except OSError as fault:
        raise Failed(f"newton can't be started: {fault}") from fault


def told_status(status: int) -> str:
    return f"newton ended with {status}: {STATUSES.get(status, 'it was killed, or is no newton')}"


def output(*words: Word, given: bytes = b"") -> bytes:
    """What a mode writes."""
    ran = started(*words)
    written, _ = ran.communicate(given)
    if ran.returncode != 0:
        raise Failed(told_status(ran.returncode))
    return written


class Session:
    """One run over some devices, whose commands are answered one at a time."""

    def __init__(self, *devices: Word):
        self.process = started("run", *devices)

    def __enter__(self) -> "Session":
        return self

    def __exit__(self, *_: object) -> None:
        self.end()

    def send(self, line: bytes) -> None:
        try:
            self.process.stdin.write(line + b"\n")
            self.process.stdin.flush()
        except (BrokenPipeError, ValueError):
            pass  # It has ended, or was: there is no reply, and its number says why.

    def reply(self) -> bytes:
        """The next reply with its line end, or nothing where the run has ended."""
        return b"" if self.process.stdout.closed else self.process.stdout.readline()

    def ask(self, command: str) -> str:
        """The fields of the reply to a command."""
        self.send(command.encode())
        reply = self.reply().decode(errors="replace").rstrip("\n")
        if not reply.startswith(("ok", "error")):
            raise Failed(told_status(self.end()))
        if reply.startswith("error"):
            raise Refused(command, reply)
        return reply[3:]

    def end(self) -> int:
        """Ends the run after what was asked, and gives its number."""
        try:
            self.process.stdin.close()
        except BrokenPipeError:
            pass
        self.process.stdout.close()
        return self.process.wait()


def commands(script: Iterator[bytes]) -> Iterator[bytes]:
    """The lines of a script without their ends."""
    return (line[:-1] if line.endswith(b"\n") else line for line in script)


def is_command(line: bytes) -> bool:
    """Whether a line gets a reply: blank lines and `%` lines get none."""
    kept = line[:-1] if line.endswith(b"\r") else line
    return kept.lstrip(b" \t")[:1] not in (b"", b"%")


def is_quit(line: bytes, reply: bytes) -> bool:
    """Whether the script ends with this command and its reply."""
    return line.split() == [b"quit"] and reply == b"ok\n"
