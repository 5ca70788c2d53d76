"""The help texts, as a terminal shows them: that of a command of the program with what the launcher takes beside it."""

import os
import re
import textwrap

from yolgibat import ROOT

HELP = ROOT / "yolgibat/help"
# How many columns a text has at most.
WIDTH = 100
# A line in two parts, or its blanks; and an option of a list of them.
PARTS, OPTION = re.compile(r" *(?:\S+(?: \S+)*  +(?=\S))?"), re.compile(r"^ +(?:-\w, )?(--[\w-]+)", re.M)
# A text that goes on in the next line, by its indent: prose, and what stands right of something.
GOES_ON = (0, *range(8, WIDTH))


def text_of(*names: str) -> str:
    """These texts, with what the launcher takes more of the command that the first one is about."""
    text = "".join((HELP / f"{it}.txt").read_text() for it in names)
    program, _, command = names[0].partition("-")
    own = HELP / f"{program}-launcher.txt"
    return filled(text + more(text, own.read_text(), command) if command and own.is_file() else text, width())


def more(text: str, own: str, command: str) -> str:
    """What the launcher takes of a command that its help does not have, by the help of the launcher."""
    usages = re.findall(rf"^  {command} +(\S.*(?:\n {{12}}.*)*)", own.partition("What each command takes")[2], re.M)
    taken = set(re.findall(r"--[\w-]+", " ".join(usages))) - set(OPTION.findall(text))
    lines = [it[0] for it in re.finditer(r"^  (--[\w-]+) .*\n(?: {28}.*\n)*", own, re.M) if it[1] in taken]
    return f"\nThe launcher takes more:\n{''.join(lines)}" if lines else ""


def width() -> int:
    """How many columns there are."""
    try:
        return min(os.get_terminal_size(1).columns or WIDTH, WIDTH)
    except OSError:
        return WIDTH


def filled(text: str, width: int) -> str:
    """A text with no line wider than that, if its words allow it."""
    items: list[tuple[int, list[str]]] = []
    for line in text.splitlines():
        indent = len(line) - len(line.lstrip())
        if items and line.strip() and items[-1][1][-1].strip() and indent == items[-1][0] and PARTS.match(line).end() == indent in GOES_ON:
            items[-1][1].append(line)
        else:
            items.append((PARTS.match(line).end(), [line]))
    return "".join(f"{it}\n" for column, lines in items for it in (wrapped(column, lines, width) if max(map(len, lines)) > width else lines))


def wrapped(column: int, lines: list[str], width: int) -> list[str]:
    """These lines as one text, which goes on in a column."""
    first, blanks = lines[0][:column], " " * min(column, width // 2)
    words = " ".join([lines[0][column:], *(it.strip() for it in lines[1:])])
    return textwrap.wrap(words, width, initial_indent=first, subsequent_indent=blanks, break_long_words=False, break_on_hyphens=False) or lines
