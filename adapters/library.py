"""The library for C, called from Python: the levels of a frame, and what a window tells of edges (include/dali_c.h)."""

import collections.abc
import contextlib
import ctypes
import pathlib
import re
import subprocess
import tempfile

import lines

ROOT = pathlib.Path(__file__).resolve().parents[1]
HEADER = ROOT / "include/dali_c.h"
# Where tools/build and `rt lib` put the library, and where tools/package leaves it.
ARCHIVES = ROOT / "crates/dali_c/out/libdali_c.a", ROOT / "out/dali_c/built.a"
# Sizes of its structs, and what a window tells.
LEVELS, WINDOW, ANSWER = 40, 16, 3
OK, SILENCE, BYTE = 0, 1, 2


@contextlib.contextmanager
def linked(source: pathlib.Path, *words: str | pathlib.Path) -> collections.abc.Iterator[pathlib.Path]:
    """A shared library that cc makes of a file by these words, as long as it is loaded."""
    with tempfile.TemporaryDirectory() as folder:
        made = pathlib.Path(folder, f"{source.stem}.so")
        try:
            ran = subprocess.run(["cc", "-shared", *words, "-o", made], stdin=subprocess.DEVNULL, capture_output=True, text=True)
        except FileNotFoundError as why:
            raise lines.Fault(f"there is no C compiler cc, which {source} needs") from why
        if ran.returncode:
            raise lines.Fault(f"{source} cannot be linked: {ran.stderr.strip()[-400:]}")
        yield made


def built() -> pathlib.Path:
    """The newest archive that was built here."""
    return max((it for it in ARCHIVES if it.exists()), key=lambda it: it.stat().st_mtime, default=ARCHIVES[0])


class Library:
    """Calls of the library, of the archive that was built here unless another is named."""

    def __init__(self, archive: pathlib.Path | None = None) -> None:
        archive = archive or built()
        if not archive.exists():
            raise lines.Fault(f"{archive} is missing: tools/build dali_c makes it; --archive names that of the package")
        with linked(archive, "-Wl,-Bsymbolic", "-Wl,--whole-archive", archive, "-Wl,--no-whole-archive") as made:
            self.calls = ctypes.CDLL(str(made))
        wanted = int(re.search(r"#define DALI_C_VERSION (\d+)", HEADER.read_text())[1])
        if self.calls.dali_c_version() & 0xFF != wanted:
            raise lines.Fault(f"{archive} has another version than {HEADER}")
        self.window, self.answer = ctypes.create_string_buffer(WINDOW), ctypes.create_string_buffer(ANSWER)

    def levels(self, frame: bytes) -> list[bool]:
        """The half bits of a frame with its stop condition, true where the bus is low."""
        made = ctypes.create_string_buffer(LEVELS)
        self.calls.dali_levels_new(made, frame[0], frame[1])
        return [it == 1 for it in made.raw]

    def heard(self, edges: list[tuple[bool, int]], last: int) -> tuple[str, int]:
        """What is told of edges after a frame, each with the time since the one before it, and of so long a time after the last one; and how
        many of the edges came before that was told."""
        self.calls.dali_window_new(self.window)
        for at, (is_low, since) in enumerate(edges):
            if told := self.told(since):
                return told, at
            if self.calls.dali_window_edge(self.window, is_low, since) & 0xFF != OK:
                return lines.DAMAGED, len(edges)
        return self.told(last) or lines.DAMAGED, len(edges)

    def told(self, since: int) -> str | None:
        """What the window tells so long after the last edge, or None."""
        status = self.calls.dali_window_time(self.window, since, self.answer)
        is_over, what, byte = self.answer.raw
        if status & 0xFF == OK and not is_over:
            return None
        return {(OK, SILENCE): lines.SILENCE, (OK, BYTE): lines.byte(byte)}.get((status & 0xFF, what), lines.DAMAGED)
