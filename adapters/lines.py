"""The lines between the program and a driver, as docs/ADAPTERS.md has them.

A driver hands `serve` a function `send(priority, frame, is_question, half)`, which sends one frame and returns what it tells.
"""

import argparse
import collections.abc
import os
import re
import sys
import time

if sys.version_info < (3, 10):
    sys.exit("Python %d.%d is too old: version 3.10 or later is needed" % sys.version_info[:2])

SILENCE, DAMAGED, DESTROYED, LAPSED = "silence", "damaged", "destroyed", "lapsed"
PUT = re.compile(rb"put ([1-5]) ([0-9A-Fa-f]{4}) (ask|tell)(?: pair ([12]))?\n")
# The longest line is read so far that a message can show where it went wrong.
LONGEST = 64
# How many seconds a driver waits until one that ran before it has ended.
PATIENCE = 3


class Fault(Exception):
    """What ends a driver."""


def byte(value: int) -> str:
    """What is told of a backward frame."""
    return f"byte {value:02X}"


def read_put() -> tuple[int, bytes, bool, int] | None:
    """The words of the next line for `send`, or None where the input ended."""
    line = sys.stdin.buffer.readline(LONGEST)
    if not line:
        return None
    form = PUT.fullmatch(line)
    if not form:
        raise Fault(f"no line of the form 'put P HHHH ask|tell [pair 1|2]': {line.decode(errors='backslashreplace')!r}")
    priority, frame, asked, half = form.groups()
    return int(priority), bytes.fromhex(frame.decode()), asked == b"ask", int(half or 0)


def tell(told: str) -> None:
    """Writes an answer, past all buffers."""
    try:
        os.write(sys.stdout.fileno(), f"{told}\n".encode())
    except OSError as why:
        raise Fault(f"the answer '{told}' cannot be written: {why.strerror}") from why


def serve(send: collections.abc.Callable[[int, bytes, bool, int], str]) -> None:
    """Answers each line with what `send` tells of its frame, until the input ends.

    The first frame of a pair is held back: it is answered `silence`, and sent right before the second one. So the time of a pair is kept
    however late the lines come (docs/ADAPTERS.md, 'A driver far away'). One that no second frame follows is not sent.
    """
    held = None
    while words := read_put():
        first, held = held, words if words[3] == 1 else None
        told = send(*first) if first and words[3] == 2 and words[1] == first[1] else SILENCE
        if not held and told not in (DESTROYED, LAPSED):
            told = send(*words)
        tell(told)


def alone(what: str, lock: collections.abc.Callable[[], object]) -> None:
    """Has an interface alone: a late line of another run is not sent in this one. `lock` fails as long as another driver has it."""
    until = time.monotonic() + PATIENCE
    while True:
        try:
            lock()
            return
        except OSError as why:
            if time.monotonic() > until:
                raise Fault(f"{what} is in use by another driver") from why
            time.sleep(0.05)


def whole(least: int, most: int) -> collections.abc.Callable[[str], int]:
    """Reads a word of the command line that is a whole number from the least to the most."""

    def read(word):
        if not re.fullmatch("[0-9]{1,9}", word) or not least <= int(word) <= most:
            raise argparse.ArgumentTypeError(f"'{word}' is no number from {least} to {most}")
        return int(word)

    return read


def run(main: collections.abc.Callable[[], None]) -> None:
    """Runs a driver. A fault ends it with status 1 and a message on standard error."""
    name = os.path.basename(sys.argv[0])
    try:
        main()
    except Fault as fault:
        sys.exit(f"{name}: {fault}")
    except OSError as why:
        sys.exit(f"{name}: {why.filename}: {why.strerror}" if why.filename else f"{name}: {why}")
    except KeyboardInterrupt:
        sys.exit(130)
