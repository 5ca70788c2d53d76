"""Plays scripts with `dali_sim replay`."""

import pathlib
import resource
import subprocess
import typing

from lib import proving
from lib.threads_report import Disagreement

TRIES = 3


def built(program: pathlib.Path | None) -> str:
    """The program to play with: the one that is named, or the one that tools/build makes."""
    return str(program or proving.built("dali_sim"))


class Played(typing.NamedTuple):
    """A run: its status, what it wrote, what it said on standard error, and the seconds of the processor."""

    status: int
    report: str
    said: str
    processor: float


def processor() -> float:
    """The seconds of the processor of all runs up to now."""
    used = resource.getrusage(resource.RUSAGE_CHILDREN)
    return used.ru_utime + used.ru_stime


def play_once(program: str, script: bytes, seconds: float) -> Played:
    before = processor()
    try:
        done = subprocess.run([program, "replay"], input=script, capture_output=True, timeout=10 * seconds)
    except subprocess.TimeoutExpired as slow:
        raise Disagreement(f"the run was not over after {10 * seconds} seconds by the clock") from slow
    taken = processor() - before
    return Played(done.returncode, done.stdout.decode("latin-1"), done.stderr.decode("latin-1"), taken)


def play(program: str, script: bytes, seconds: float = 1) -> Played:
    """Plays a script. It may take so many seconds of the processor, and by the clock ten times as many. Other work of
    the machine may hold up a run, so one that is too slow is played again: it is wrong where each is too slow.
    """
    for _ in range(TRIES):
        run = play_once(program, script, seconds)
        if run.processor <= seconds:
            return run
    raise Disagreement(f"each of {TRIES} runs took more than {seconds} seconds of the processor")
