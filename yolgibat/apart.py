"""Processes that join a program and its driver (joining.py): one for each command that a page, a building or a walk begins."""

import contextlib
import fcntl
import io
import json
import os
import pathlib
import signal
import subprocess
import sys
import typing

from yolgibat import ROOT, joining

# Behind it stand the folder of this package, and what `join` takes as JSON.
CALL = "import sys; sys.path[0] = sys.argv[1]; from yolgibat import apart; apart.join(sys.argv[2])"
# The commands by which the call of a program is known.
COMMANDS = (b"run", b"check", b"identify", b"replace", b"mend")


class Process(subprocess.Popen):
    """A process that joins a program and a driver, as `joining.join` takes them as words. It inherits these descriptors, and tells the story in
    the file of the first one, if there are any."""

    def __init__(self, words: list[object], files: tuple[int, ...] = ()) -> None:
        call, pipes = [sys.executable, "-S", "-c", CALL, str(ROOT), json.dumps([*words, *files[:1]])], {"stdout": subprocess.PIPE, "stderr": subprocess.PIPE}
        # A signal waits until there is a program to which it is passed on.
        before = signal.pthread_sigmask(signal.SIG_BLOCK, joining.PASSED)
        try:
            super().__init__(call, stdin=subprocess.DEVNULL, pass_fds=files, start_new_session=True, **pipes)
        finally:
            signal.pthread_sigmask(signal.SIG_SETMASK, before)


def join(words: str) -> typing.NoReturn:
    program, driver, seconds, is_gentle, *story = json.loads(words)
    sys.exit(joining.join(program, driver, seconds, is_gentle, {"story": os.fdopen(it, "wb", buffering=0) for it in story}))


class Left:
    """A process that goes on though what began it is gone: the words of its program, and its story. What else it tells nothing hears.

    opened  the file that it keeps locked until it has ended
    """

    def __init__(self, pid: int, words: list[str], story: int, opened: typing.TextIO) -> None:
        self.pid, self.words, self.story, self.opened, self.returncode = pid, words, story, opened, None
        self.stdout, self.stderr, self.begun = io.BytesIO(), io.BytesIO(), os.stat(f"/proc/{pid}").st_mtime

    def wait(self) -> None:
        """Waits for its end, and has the lock then."""
        fcntl.flock(self.opened, fcntl.LOCK_EX)
        self.returncode = 0

    def send_signal(self, number: int) -> None:
        """Sends a signal, unless it has ended, which may not be known yet."""
        with contextlib.suppress(ProcessLookupError):
            os.kill(self.pid, number)


def left_of(opened: typing.TextIO) -> Left | None:
    """The process that keeps a file locked, if there is one and it is this user's."""
    for process in pathlib.Path("/proc").glob("[0-9]*"):
        with contextlib.suppress(OSError, IndexError, StopIteration):
            files = {it: os.stat(it) for it in process.glob("fd/*")} if int(process.name) != os.getpid() else {}
            if any(os.path.samestat(it, os.fstat(opened.fileno())) for it in files.values()):
                story = next(it for it in files if os.readlink(it).startswith("/memfd:story"))
                children = (process / "task" / process.name / "children").read_text().split()
                calls = [pathlib.Path(f"/proc/{it}/cmdline").read_bytes().split(b"\0")[:-1] for it in children]
                # The driver has no command of the program.
                words = next(call[at:] for call in calls for at in (1, 2, 3, 4) if call[at : at + 1] and call[at] in COMMANDS)
                return Left(int(process.name), list(map(os.fsdecode, words)), os.open(story, os.O_RDONLY), opened)
    return None
