"""Draws a run as a page for a browser, or as a value change dump of its bus: what `./dali_view`, `./dali_sim view` and `trace` do."""

import os
import subprocess

from yolgibat import dump, programs, standard, story, viewer

BAD_STORY, FAILED = 1, 3


def trace(raw: bytes) -> bytes:
    return dump.of(story.read(raw)).encode("ascii")


# What can be drawn of a story, by name: each takes the bytes of a story, and gives those of what it draws; `story.Bad` if it is none.
KINDS = {"page": viewer.fill, "trace": trace}


def write(text: bytes) -> int:
    try:
        while text:
            text = text[os.write(1, text) :]
    except OSError as why:
        standard.say(f"view: the output cannot be written: {why.strerror}")
        return FAILED
    return 0


def draw_story(kind: str, name: str) -> int:
    try:
        with open(0 if name == "-" else name, "rb") as file:
            raw = file.read(story.LONGEST + 1)
        page = KINDS[kind](raw)
    except OSError as why:
        standard.say(f"view: the story '{name}' cannot be read: {why.strerror}")
        return FAILED
    except story.Bad as wrong:
        standard.say(f"view: the story is bad: {wrong}")
        return BAD_STORY
    return write(page)


def draw_script(kind: str) -> int:
    """Draws the story that the program tells of the script in standard input."""
    ran = subprocess.run([programs.drawing("dali_view", kind)], stdout=subprocess.PIPE)
    if ran.returncode:
        return ran.returncode if ran.returncode > 0 else 128 - ran.returncode
    try:
        return write(KINDS[kind](ran.stdout))
    except story.Bad as wrong:
        standard.say(f"view: the program wrote no story: {wrong}")
        return programs.REFUSED
