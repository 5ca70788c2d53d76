"""Judges a capture of a bus, with the words of `./dali_sim audit`, as docs/FORMAT.md says. The program reads it once for each thing that is told."""

import json
import os
import subprocess
import typing

from yolgibat import anew, command, programs, standard, telling

FAILED = 3
# The program ends so when it has told all that it has to tell: with a finding, and without.
TOLD = (0, 4)


def ran(words: list[str], capture: str, **more: typing.Any) -> tuple[bytes, int]:
    """What the program writes with these words, and its status."""
    with open(capture, "rb") as given:
        done = subprocess.run([programs.LAUNCH, "dali_audit_program", *words], stdin=given, stdout=subprocess.PIPE, **more)
    return done.stdout, done.returncode if done.returncode >= 0 else 128 - done.returncode


def write(path: str, file: typing.BinaryIO, text: bytes) -> int:
    """Writes a file anew, all of it or nothing."""
    try:
        anew.empty(file)
        while text:
            text = text[file.write(text) :]
    except OSError as why:
        anew.empty(file)
        standard.say(f"audit: '{path}' cannot be written: {why.strerror}")
        return FAILED
    return 0


def tell(capture: str, words: list[str]) -> tuple[bytes, int]:
    """The story of a capture, and a status. What the program says of it is said by its last run."""
    items, status = ran([*words, "--items"], capture)
    if status:
        return b"", status
    told, status = ran([*words, "--json"], capture, stderr=subprocess.DEVNULL)
    if status not in TOLD:
        return b"", status
    return telling.capture_story(items.decode(), json.loads(told)).encode(), 0


def write_all(capture: str, words: list[str], paths: dict[str, str]) -> int:
    """Writes the files that are wanted of a capture, if each of them may be made anew."""
    with anew.judged(paths, [capture], anew.AUDITED) as files:
        for name, file in files.items():
            text, status = ran([*words, "--bench"], capture) if name == "--bench" else tell(capture, words)
            if status := status or write(paths[name], file, text):
                return status
    return 0


def main(capture: str, paths: dict[str, str], rest: list[str]) -> int:
    if capture != "-":
        if not os.access(capture, os.R_OK):
            standard.say(f"audit: the capture '{capture}' cannot be read")
            return FAILED
        if status := write_all(capture, rest, paths):
            return status
        os.dup2(os.open(capture, os.O_RDONLY), 0)
    command.become(programs.LAUNCH, "dali_audit_program", *rest)
