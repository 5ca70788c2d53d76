"""Joins a program and its driver: starts both, passes lines and signals on, and ends the driver, as docs/ADAPTERS.md says.

Their standard error is left alone, but for what a view of the program shows in its place. A signal is passed on to the program. Gently, the
first one waits for the answer that is awaited, and then ends the program's input; it is passed on after two seconds in which the program did
not end, and so is a second one that is not the same within 0.3 seconds."""

import contextlib
import math
import os
import re
import signal
import subprocess
import threading
import time
import types
import typing

from yolgibat import relay, telling
from yolgibat.standard import UNWRITTEN, say

if typing.TYPE_CHECKING:
    from yolgibat import following

# The signals that are passed on to the program.
PASSED = (signal.SIGTERM, signal.SIGHUP, signal.SIGINT)
# How many seconds a driver has after the end of its input, and how many more after it was terminated.
PATIENCE = 2
# Within how many seconds two equal signals are one: `timeout` sends each twice, to a process and to its group.
SAME = 0.3
# How many seconds a driver has for an answer, if nothing else is said.
ANSWERS = 10
# The exit statuses that are not the program's.
AT_FAULT, NOT_STARTED = 4, 127
# What a program says if its input ends, as it does when a signal asks for an end in order.
INPUT_ENDED = re.compile(rb"error: line \d+ of the driver: end of input\n?")


class Signals:
    """Passes signals on to a program; those that come before it is started, it gets then. What is ignored stays ignored.

    Where it is gentle, the first signal asks for an end in order, and is passed on only where that takes too long.
    """

    def __init__(self, is_gentle: bool) -> None:
        self.program, self.is_gentle, self.came, self.moments = None, is_gentle, [], []
        # What is written when a signal comes, so that whoever waits for files sees it.
        woken, waker = os.pipe()
        os.set_blocking(waker, False)
        signal.set_wakeup_fd(waker, warn_on_full_buffer=False)
        self.file = os.fdopen(woken, "rb", buffering=0)
        for number in PASSED:
            if signal.getsignal(number) != signal.SIG_IGN:
                signal.signal(number, self.take)
        signal.pthread_sigmask(signal.SIG_UNBLOCK, PASSED)

    def take(self, number: int, _frame: types.FrameType | None) -> None:
        now = time.monotonic()
        if not self.is_gentle or self.came[-1:] != [number] or now - self.moments[-1] > SAME:
            self.add(number, now)

    def add(self, number: int, now: float) -> None:
        self.came.append(number)
        self.moments.append(now)
        if self.program and (not self.is_gentle or self.is_urgent()):
            self.program.send_signal(number)

    def begin(self, program: subprocess.Popen[bytes]) -> None:
        self.program = program
        for number in self.came[1 if self.is_gentle else 0 :]:
            program.send_signal(number)

    def clear(self) -> None:
        """Nobody has to wake for the signals that came so far."""
        os.read(self.file.fileno(), 4096)

    def is_to_end(self) -> bool:
        """Whether the program is to end by itself."""
        return self.is_gentle and bool(self.came)

    def is_urgent(self) -> bool:
        """Whether nobody is to wait for anything any more."""
        return len(self.came) > 1

    def patient_until(self) -> float:
        """Until when a program has time to end by itself."""
        return self.moments[0] + PATIENCE if self.is_to_end() and not self.is_urgent() else math.inf

    def pass_on(self) -> None:
        """Passes on the first signal, since the program has not ended by itself."""
        self.add(self.came[0], time.monotonic())


def started(title: str, what: str, words: list[str], says: int | None = None) -> subprocess.Popen[bytes] | None:
    """A process with a pipe from it and one to it, or None. What it says goes there, or where this process says something.

    It has a session of its own: an interrupt from the terminal comes here, and from here once to the program alone, so that the
    driver can end in order. It ignores SIGPIPE, so that it sees an error where it writes to somebody who is gone.
    """
    how = {"stderr": says, "start_new_session": True, "restore_signals": False, "bufsize": 0}
    try:
        return subprocess.Popen(words, stdin=subprocess.PIPE, stdout=subprocess.PIPE, **how)
    except (OSError, ValueError) as why:
        say(f"{title}: the {what} '{words[0]}' cannot be started: {getattr(why, 'strerror', None) or why}")
        return None


def drain(driver: subprocess.Popen[bytes]) -> None:
    """Reads what nobody waits for, so that the driver can write it, and end."""
    with contextlib.suppress(OSError):
        while os.read(driver.stdout.fileno(), relay.MUCH):
            pass


def pass_said(program: subprocess.Popen[bytes], signals: Signals, view: "following.View | None") -> None:
    """Passes on what a program says, but not that its input has ended if a signal asked for that."""
    for line in program.stderr:
        if signals.is_to_end() and INPUT_ENDED.fullmatch(line):
            continue
        if view:
            view.say(os.fsdecode(line))
        else:
            say(os.fsdecode(line), "")


def end(title: str, driver: subprocess.Popen[bytes], is_at_fault: bool = False) -> bool:
    """Ends the input of a driver, waits for its end, and hastens it where it takes too long. Whether it ended by itself. What it writes is
    looked at no more if it is at fault."""
    relay.close(driver.stdin)
    if is_at_fault:
        threading.Thread(target=drain, args=(driver,), daemon=True).start()
    is_hastened = False
    for number, word in ((signal.SIGTERM, "terminated"), (signal.SIGKILL, "killed")):
        try:
            driver.wait(PATIENCE)
        except subprocess.TimeoutExpired:
            say(f"{title}: the driver goes on without its program, and is {word}")
            os.killpg(driver.pid, number)
            is_hastened = True
    driver.wait()
    return not is_hastened


def say_end(title: str, driver: subprocess.Popen[bytes], fault: relay.Fault | None, is_by_itself: bool) -> None:
    """Says what was wrong with a driver that has ended, but for a signal that was sent to hasten it; the cause of all else comes last."""
    status = driver.returncode
    ended = f"the driver ended with status {status}" if status >= 0 else f"signal {-status} ended the driver"
    if isinstance(fault, relay.Gone) and is_by_itself:
        say(f"{title}: {ended} {fault}")
        return
    if status > 0 or status and is_by_itself:
        say(f"{title}: {ended}")
    if isinstance(fault, relay.Gone):
        say(f"{title}: the driver closed its standard input or output {fault}")
    elif fault:
        say(f"{title}: {fault}")


def join(
    program: list[str], driver: list[str], seconds: float = ANSWERS, is_gentle: bool = False,
    files: dict[str, typing.BinaryIO] | None = None, title: str | None = None, view: "following.View | None" = None,
) -> int:
    """Runs a program and a driver, each a list of words, tells of their frames in files, `story` and `trace`, and returns the exit status. A view
    says what the program says, and shows how far it is."""
    title, signals = title or os.path.basename(program[0]), Signals(is_gentle)
    drives = started(title, "driver", driver)
    if not drives:
        return NOT_STARTED
    is_heard = is_gentle or view is not None
    runs = started(title, "program", program, subprocess.PIPE if is_heard else None)
    if not runs:
        say_end(title, drives, None, end(title, drives))
        return NOT_STARTED
    signals.begin(runs)
    is_shown = view is not None and view.below.is_able
    tells = telling.Run(**(files or {}), view=view if is_shown else None) if files or is_shown else None
    between = relay.Relay(runs, drives, seconds, signals, tells)
    said = threading.Thread(target=pass_said, args=(runs, signals, view), daemon=True)
    if is_heard:
        said.start()
    between.run()
    if is_heard:
        said.join(PATIENCE)
    if view:
        view.end()
    is_by_itself = end(title, drives, between.fault is not None)
    between.look_for_rest()
    if tells:
        is_run = program[1:2] == ["run"] and not between.fault
        tells.end(runs.returncode if is_run else None, sorted(view.left_alone) if view else [])
        for name, why in tells.faults.items():
            say(f"{title}: the {name} cannot be written: {why}")
    say_end(title, drives, between.fault, is_by_itself)
    return status_of(title, runs, between, signals)


def status_of(title: str, program: subprocess.Popen[bytes], between: relay.Relay, signals: Signals) -> int:
    """The exit status of a run that has ended."""
    if between.unwritten:
        say(f"{title}: standard output cannot be written: {between.unwritten}")
    if signals.is_to_end():
        return 128 + signals.came[0]
    if program.returncode < 0:
        return 128 - program.returncode
    if between.fault:
        return AT_FAULT
    return program.returncode or (UNWRITTEN if between.unwritten else 0)
