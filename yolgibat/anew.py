"""Opens the files that --story, --trace and --bench name. Each is made anew only if nothing else than an earlier one of them is lost by that."""

import collections.abc
import contextlib
import os
import pathlib
import re
import stat
import typing

from yolgibat import dump, marks, places, serials
from yolgibat.command import BadWord


class Forms(typing.NamedTuple):
    """What may be made anew, in words and as it looks."""

    words: str
    looks: re.Pattern[bytes]


# How a story begins, and a trace; and all of a bench that an audit writes, which has at most so many bytes.
STORY, TRACE = b'[{]"story":', re.escape(dump.HEADER.partition("\n")[0].encode())
BENCH = (
    rb"bench \d+\ndraws(?: [0-9A-F]{6})*\n"
    rb"(?:(?:used \d+ \d+ [0-9A-F]{6}|(?:on|off|expire) \d+|quiet|frame [0-9A-F]{4})\n)*\Z"
)
MUCH = 1 << 20
TOLD = Forms("a story or a trace", re.compile(b"|".join((STORY, TRACE))))
AUDITED = Forms("a story or a bench of an audit", re.compile(b"|".join((STORY, BENCH))))
# What lies beside a file of records: what SQLite and a replacement make behind its name, and the address of its page; and what is kept in
# place of its ending. Each may be written as `.new` first.
BEHIND, ENDINGS = ("", "-wal", "-shm", "-journal", ".replacing", ".page"), (places.ENDING, marks.ENDING, serials.ENDING)
# What parts a word in which a file is named.
EDGES = re.compile(r"[\s=]+")


def beside(records: str) -> collections.abc.Iterator[str]:
    """A file of records, and all that may lie beside it, also where a link leads."""
    for at in dict.fromkeys((records, os.path.realpath(records))):
        yield from (f"{at}{new}{it}" for new in ("", ".new") for it in BEHIND)
        if pathlib.PurePath(at).name:
            yield from (f"{pathlib.PurePath(at).with_suffix(it)}{new}" for new in ("", ".new") for it in ENDINGS)


def named(words: list[str]) -> collections.abc.Iterator[str]:
    """What may be a file of these words."""
    for word in words:
        yield from filter(None, dict.fromkeys((word, *EDGES.split(word))))


def is_same(file: typing.BinaryIO, path: str) -> bool:
    """Whether this open file lies there, by whatever name or link."""
    try:
        return os.path.samestat(os.fstat(file.fileno()), os.stat(path))
    except OSError:
        return False


def check(file: typing.BinaryIO, others: list[str], forms: Forms) -> None:
    """Refuses a file that is something else than an empty file, one of these forms, a pipe or a device of characters; or that is one of the
    others."""
    mode = os.fstat(file.fileno()).st_mode
    if stat.S_ISCHR(mode):
        return
    begun = os.pread(file.fileno(), MUCH, 0) if stat.S_ISREG(mode) else b""
    if begun and not forms.looks.match(begun) or not (stat.S_ISREG(mode) or stat.S_ISFIFO(mode)):
        raise BadWord(f"it is neither empty nor {forms.words}, and is left as it is")
    if other := next((it for it in others if is_same(file, it)), None):
        raise BadWord(f"it is '{other}', which this call needs for something else")


@contextlib.contextmanager
def opened(path: str) -> collections.abc.Iterator[typing.BinaryIO]:
    """An open file, with all that is in it. If it was not there before, and nothing was written to it, it is taken away again."""
    is_there = os.path.exists(path)
    how = os.O_WRONLY if is_there and not os.path.isfile(path) else os.O_RDWR | os.O_CREAT
    with open(os.open(path, how, 0o666), "wb", buffering=0) as file:
        try:
            yield file
        finally:
            if not is_there and is_same(file, path) and not os.fstat(file.fileno()).st_size:
                os.unlink(os.path.realpath(path))


def empty(file: typing.BinaryIO) -> None:
    """Makes a file anew."""
    if stat.S_ISREG(os.fstat(file.fileno()).st_mode):
        os.ftruncate(file.fileno(), 0)


@contextlib.contextmanager
def judged(paths: dict[str, str], others: list[str], forms: Forms) -> collections.abc.Iterator[dict[str, typing.BinaryIO]]:
    """The files at these paths, each by the name of its option and as it is, if all of them may be made anew and are none of the others."""
    with contextlib.ExitStack() as held:
        found = {}
        for name, path in paths.items():
            try:
                found[name] = held.enter_context(opened(path))
                check(found[name], [*others, *(it for other, it in paths.items() if other != name)], forms)
            except (BadWord, OSError) as why:
                raise BadWord(f"{name} {path}: {getattr(why, 'strerror', why)}") from why
        yield found


@contextlib.contextmanager
def files(paths: dict[str, str], records: list[str], driver: list[str]) -> collections.abc.Iterator[dict[str, typing.BinaryIO]]:
    """The files at these paths, each made anew, for a call that works with these records and this driver."""
    others = [*(it for one in records for it in beside(one)), *named(driver)]
    with judged(paths, others, TOLD) as found:
        for it in found.values():
            empty(it)
        yield found
