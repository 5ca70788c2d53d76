"""The standard files of a tool, any of which may be closed, full or gone."""

import contextlib
import errno
import os
import sys

# The exit status of a tool that could not write what it had to write.
UNWRITTEN = 3
# The language in which is said what has a translation. What is said comes in English.
ENGLISH = spoken = "en"


class Unwritten(Exception):
    """Standard output cannot be written, and why."""


def fill() -> None:
    """Opens those of the three that are closed, so that no pipe and no file takes their places."""
    while (number := os.open(os.devnull, os.O_RDWR)) < 3:
        os.set_inheritable(number, True)
    os.close(number)


def say(text: str, end: str = "\n") -> None:
    """Says something on standard error. If that is gone, as with a closed terminal, all goes on."""
    with contextlib.suppress(OSError):
        os.write(2, encoded(f"{translated(text)}{end}"))


def encoded(text: str) -> bytes:
    """A text as a terminal takes it. Of what that has no sign for stands a question mark."""
    try:
        return os.fsencode(text)
    except UnicodeEncodeError:
        return text.encode(sys.getfilesystemencoding(), "replace")


def translated(text: str) -> str:
    """A text with each line in the language that is spoken, as far as it has a translation."""
    if spoken == ENGLISH:
        return text
    # Whoever speaks English does not wait for the list.
    from yolgibat import texts

    return "\n".join(texts.told(it, spoken) or it for it in text.split("\n"))


class Below:
    """Lines that stay on a terminal below all that is said, and are written over and over. Elsewhere, or if it can do no more than a typewriter,
    there are none."""

    def __init__(self) -> None:
        self.is_able, self.shown = os.isatty(2) and os.environ.get("TERM", "dumb") != "dumb", 0

    def say(self, text: str, lines: list[list[str]]) -> None:
        """Says a text of whole lines, and shows these lines, each as far as its parts have room, the last ones first."""
        if not self.is_able:
            say(text, "")
            return
        try:
            width, height = (it or 80 for it in os.get_terminal_size(2))
        except OSError:
            width, height = 80, 24
        up, below = f"\x1b[{self.shown}F\x1b[J" if self.shown else "", [fitting(it, width - 1) for it in lines[1 - height :]]
        say(f"{up}{translated(text)}" + "".join(f"{it}\n" for it in below), "")
        self.shown = len(below)


def fitting(parts: list[str], width: int) -> str:
    """As many of these parts as a line has room for, at least a piece of the first one."""
    while len(parts) > 1 and len(", ".join(parts)) > width:
        parts = parts[:-1]
    return ", ".join(parts)[:width]


def write(text: str) -> None:
    """Writes to standard output at once, all of it."""
    left = text.encode(errors="replace")
    try:
        if left and sys.stdout is None:
            raise OSError(errno.EBADF, os.strerror(errno.EBADF))
        while left:
            left = left[os.write(1, left) :]
    except OSError as why:
        raise Unwritten(f"standard output cannot be written: {why.strerror}") from why


def ended(text: str, status: int) -> int:
    """Writes what came of a command. Its status, or 3 in place of 0 if that cannot be written, which is said."""
    try:
        write(text)
        return status
    except Unwritten as why:
        say(f"dali_commission: {why}")
        return status or UNWRITTEN
