"""The help and the version of the programs: yolgibat/help has them, so that they are there before a program is built. What an option does stands
beside it there, and not below it."""

import pathlib
import re
import subprocess
import textwrap

from lib import ROOT, proving

FOLDER = ROOT / "yolgibat/help"
WIDTH = 120
# What a program says of its shorter help; a list of words or options, each with what it does below it; and each of them.
SUMMARY, LIST = " (see a summary with '-h')", re.compile(r"(?<=:\n)(?: +\S.*\n(?: {10}.*\n|\n(?= ))+)+")
ITEM = re.compile(r"^( {2,6}\S.*)\n((?: {10}.*\n|\n(?= {10}))+)", re.M)
# Of each program the file of each text, and the words that ask for it. What only the launchers say, no program does: the files
# of `launcher`, `page`, `building`, `audit` and `trace`, and dali_view.txt. The lint compares dali_commission-launcher.txt with the helps of its
# commands.
WORDS = {
    "dali_sim": {
        "dali_sim.txt": ["--help"],
        "dali_sim-replay.txt": ["replay", "--help"],
        "dali_sim-threads.txt": ["threads", "--help"],
        "dali_sim-version.txt": ["--version"],
    },
    "dali_commission": {
        "dali_commission-run.txt": ["run", "--help"],
        "dali_commission-check.txt": ["check", "--help"],
        "dali_commission-identify.txt": ["identify", "--help"],
        "dali_commission-table.txt": ["table", "--help"],
        "dali_commission-replace.txt": ["replace", "--help"],
        "dali_commission-mend.txt": ["mend", "--help"],
        "dali_commission-clear.txt": ["clear", "--help"],
        "dali_commission-version.txt": ["--version"],
    },
}


def texts(name: str, program: str | pathlib.Path | None) -> dict[pathlib.Path, bytes]:
    """What each file is to have by a program of this name, which stands at this place."""
    program = program or proving.CRATES / name / "out" / name
    return {FOLDER / file: said(program, words) for file, words in WORDS[name].items()}


def said(program: str | pathlib.Path, words: list[str]) -> bytes:
    """What the program says to these words."""
    wrote = subprocess.run([program, *words], capture_output=True, stdin=subprocess.DEVNULL, check=True).stdout
    return LIST.sub(beside, wrote.decode().replace(SUMMARY, "")).encode()


def beside(found: re.Match[str]) -> str:
    """A list in which what each word does stands beside it."""
    items = [(label, " ".join(text.split())) for label, text in ITEM.findall(found[0])]
    column = max(len(label) for label, _ in items) + 2
    lines = [textwrap.fill(f"{label:{column}}{text}", WIDTH, subsequent_indent=" " * column, break_on_hyphens=False) for label, text in items]
    return "\n".join(lines) + "\n"


def stale(name: str, program: str | pathlib.Path | None = None) -> list[pathlib.Path]:
    """The files that have something else than the program says."""
    return [file for file, text in texts(name, program).items() if not file.is_file() or file.read_bytes() != text]


def write(name: str, program: str | pathlib.Path | None = None) -> None:
    FOLDER.mkdir(exist_ok=True)
    for file, text in texts(name, program).items():
        file.write_bytes(text)
