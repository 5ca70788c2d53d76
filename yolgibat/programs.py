"""The programs that the launchers start. A package has them in a folder. In a clone one that is missing or old is built first: this module
and `launch` alone know of that.

Some modules are loaded only when they are wanted, here and in command.py: so a call that goes on to a program starts at once.
"""

import os
import pathlib
import signal

from yolgibat import ROOT, standard

REFUSED, INTERRUPTED = 126, 130
LAUNCH, PACKAGED = ROOT / "yolgibat/launch", ROOT / "programs"
BUILD, FIRST_RUN = ROOT / "tools/build", ROOT / "tools/first-run"
# The signals that end a build.
PASSED = (signal.SIGTERM, signal.SIGHUP, signal.SIGINT)


def path(name: str) -> pathlib.Path:
    return PACKAGED / name if PACKAGED.is_dir() else ROOT / f"crates/{name}/out/{name}"


def is_there(name: str) -> bool:
    """Whether a program is there, and newer than its sources."""
    import subprocess

    return PACKAGED.is_dir() or subprocess.run([LAUNCH, "--is-there", name]).returncode == 0


def fault(name: str, words: list[str]) -> tuple[str, int] | None:
    """What is wrong with the words of a call of a program that must be built first, and a status, if something is."""
    if is_there(name):
        return None
    from yolgibat import call_words

    return call_words.fault(name, words)


def ready(name: str) -> tuple[pathlib.Path, int]:
    """A program, and a status: 0 if it is there. Signals that come while it is built are passed on."""
    if is_there(name):
        return path(name), 0
    import subprocess

    build = subprocess.Popen([BUILD, name])
    before = {it: signal.getsignal(it) for it in PASSED}
    for number, how in before.items():
        if how != signal.SIG_IGN:
            signal.signal(number, lambda number, _: build.send_signal(number))
    status = build.wait()
    for number, how in before.items():
        signal.signal(number, how)
    return path(name), status if status >= 0 else 128 - status


def commission(path: str | None) -> tuple[str, int]:
    """The program dali_commission, or this one in its place, and a status: 0 if it is there."""
    program, status = (os.path.abspath(path), 0) if path else ready("dali_commission")
    return str(program), status


def is_found(name: str) -> bool:
    """Whether any program is called so, or lies there, and can be run."""
    import shutil

    return bool(shutil.which(name))


def can_start(title: str, driver: list[str]) -> bool:
    """Whether a driver is a program that can be run. If it is none, that is said."""
    if is_found(driver[0]):
        return True
    standard.say(f"{title}: the driver '{driver[0]}' cannot be started: it is no program that can be run")
    return False


def drawing(name: str, kind: str) -> pathlib.Path:
    """The program that tells what is drawn. If it must be built first, the first run takes the place of this process."""
    if not is_there(name):
        os.execv(FIRST_RUN, ["first-run", "--as", kind, name])
    return path(name)
