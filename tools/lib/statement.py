"""The page of crates/dali_statement: its sections and its definitions, with file and line. See tools/statement."""

import pathlib
import re
from collections.abc import Iterator
from typing import NamedTuple

PAGE = "crates/dali_statement/specs/Page.antt"
DOCUMENT = "docs/STATEMENT.md"
# The sections that the document has.
SHOWN = ("the five rules for senders", "the promise")
HEAD = re.compile(r"^-- -{10,} (.+)$")
DEFINITION = re.compile(r"^(?:abbrev pub|pub data|pub record) ([^\s:]+)", re.M)
BLOCK = re.compile(r"^```antt\n(-- \S+:\d+: ([^\n]+)\n.*?)^```$", re.M | re.S)
COUNT = re.compile(r"(\d+) definitions in (\d+) lines")


class Section(NamedTuple):
    """A part of the page: its title, the line on which it begins, and its text."""

    title: str
    line: int
    text: str

    def printed(self) -> str:
        return f"-- {PAGE}:{self.line}: {self.title}\n\n{self.text}"


def sections(root: pathlib.Path) -> list[Section]:
    """The parts of the page, in their order."""
    lines = (root / PAGE).read_text().splitlines()
    heads = [at for at, line in enumerate(lines) if HEAD.match(line)]
    ends = [*heads[1:], len(lines)]
    return [Section(HEAD.match(lines[at])[1], at + 1, "\n".join(lines[at + 1 : end]).strip() + "\n") for at, end in zip(heads, ends)]


def definitions(root: pathlib.Path) -> list[tuple[str, int]]:
    """What the page defines, each with its line."""
    text = (root / PAGE).read_text()
    return [(it[1], text.count("\n", 0, it.start()) + 1) for it in DEFINITION.finditer(text)]


def lines_of_definitions(root: pathlib.Path) -> int:
    """How many lines they have, without comments, blank lines and imports."""
    return sum(1 for line in (root / PAGE).read_text().splitlines() if not re.match(r"\s*(?:--|use |$)", line))


def count(root: pathlib.Path) -> str:
    return f"{len(definitions(root))} definitions in {lines_of_definitions(root)} lines"


def written(root: pathlib.Path) -> str:
    """The document with the page as it is now."""
    by_title = {it.title: it for it in sections(root)}
    text = (root / DOCUMENT).read_text()
    text = BLOCK.sub(lambda it: f"```antt\n{by_title[it[2]].printed()}```" if it[2] in by_title else it[0], text)
    return COUNT.sub(count(root), text)


def missing(root: pathlib.Path) -> Iterator[str]:
    """In what the document differs from the page."""
    if not (root / PAGE).exists():
        return
    text = (root / DOCUMENT).read_text() if (root / DOCUMENT).exists() else ""
    shown = [it[2] for it in BLOCK.finditer(text)]
    yield from (f"{DOCUMENT}: the section '{it}' of {PAGE} is missing" for it in SHOWN if it not in shown)
    if not COUNT.search(text):
        yield f"{DOCUMENT}: it does not say how many definitions {PAGE} has"
    if text and text != written(root):
        yield f"{DOCUMENT}: it is not as {PAGE} is: run tools/statement --write"
