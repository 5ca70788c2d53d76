"""Passes the lines of a program to its driver, one at a time, and what it answers back: joining.py says how."""

import math
import os
import select
import subprocess
import time
import typing

if typing.TYPE_CHECKING:
    from yolgibat import joining, telling

# What the lines of a program begin with that are the driver's.
PUT = b"put "
# How many bytes a line of a driver has at most, and how many are shown of one.
LONGEST = SHOWN = 16
# How much is read at once of a program, and of a driver.
MUCH, LITTLE = 65536, 64


class Fault(Exception):
    """What is wrong with the driver: nothing is passed to it any more, and the program sees the end of its input."""


class Gone(Fault):
    """The driver is gone. It says which frame it did not answer; how it ended is known later."""


def shown(line: bytes) -> str:
    """A line of a driver for a message: its first bytes, those that are no printable ASCII by their numbers."""
    text = "".join(chr(it) if 32 <= it < 127 else f"\\x{it:02X}" for it in line[:SHOWN])
    return f"'{text}'{'..' if len(line) > SHOWN else ''}"


def readable(files: list[typing.IO[bytes]], seconds: float) -> list[typing.IO[bytes]]:
    """Which of these files have something to read, or are at their end, at the latest after so many seconds."""
    poll, by_number = select.poll(), {it.fileno(): it for it in files}
    for number in by_number:
        poll.register(number, select.POLLIN)
    return [by_number[number] for number, _ in poll.poll(None if seconds == math.inf else math.ceil(seconds * 1000))]


class Relay:
    """The lines between a program and a driver, both with pipes, and what is due between them.

    program, driver  the two processes
    seconds          how long a driver may take for an answer
    signals          which signals came, and a file that says so
    tells            what tells of frames and answers in files, or None
    """

    def __init__(
        self, program: subprocess.Popen[bytes], driver: subprocess.Popen[bytes], seconds: float, signals: "joining.Signals",
        tells: "telling.Run | None" = None,
    ) -> None:
        self.program, self.driver, self.seconds, self.signals, self.tells = program, driver, seconds, signals, tells
        # What the program wrote that is not passed yet, what the driver has begun to answer, and whether both have written their last.
        self.wrote, self.told, self.is_ended, self.is_gone = b"", b"", False, False
        # How many frames were passed, and until when the last one is to be answered, where it is not.
        self.frames, self.until = 0, math.inf
        # What is wrong with the driver, and with standard output.
        self.fault, self.unwritten = None, None
        os.set_blocking(driver.stdin.fileno(), False)

    def run(self) -> None:
        """Passes lines until the program has ended and each of its frames is answered, or until that is waited for in vain."""
        while not self.is_over():
            try:
                self.turn()
            except Fault as fault:
                self.fault, self.until = fault, math.inf
                self.close_input()
                self.pass_on()

    def is_over(self) -> bool:
        if not self.is_ended:
            return False
        is_stopped = self.program.returncode < 0 or self.signals.is_urgent()
        # The rest of an answer that has begun nobody reads.
        return is_stopped or self.fault is not None or not self.is_awaited() or bool(self.told)

    def is_awaited(self) -> bool:
        return self.until < math.inf

    def turn(self) -> None:
        """Waits until something happens, and does what is due. What the driver wrote comes before the next frame."""
        ready = readable(self.watched(), self.left())
        if self.signals.file in ready:
            self.signals.clear()
        if self.driver.stdout in ready:
            self.hear()
        if self.program.stdout in ready:
            self.take()
        self.look_at_times()
        self.pass_on()

    def watched(self) -> list[typing.IO[bytes]]:
        """The files that may say something. The program is not read where a frame of it waits for the driver."""
        files = [self.signals.file]
        if not self.is_ended and b"\n" not in self.wrote:
            files.append(self.program.stdout)
        if not self.is_gone and self.fault is None:
            files.append(self.driver.stdout)
        return files

    def left(self) -> float:
        """How many seconds may be waited."""
        return max(min(self.until, self.patient_until()) - time.monotonic(), 0)

    def patient_until(self) -> float:
        """Until when the program has time to end by itself."""
        return math.inf if self.is_ended else self.signals.patient_until()

    def look_at_times(self) -> None:
        """What is due since somebody waited too long, or was asked to end."""
        now = time.monotonic()
        if now >= self.until:
            seconds = f"{self.seconds:g} second{'' if self.seconds == 1 else 's'}"
            raise Fault(f"the driver did not answer frame {self.frames} in {seconds}")
        if not self.is_awaited() and self.signals.is_to_end():
            self.close_input()
        if now >= self.patient_until():
            self.signals.pass_on()

    # The program.

    def take(self) -> None:
        """Takes what the program wrote, or sees that it has ended."""
        more = os.read(self.program.stdout.fileno(), MUCH)
        self.wrote += more
        if not more:
            self.is_ended = True
            # With a time-out it looks again and again, so that a signal which came right before is passed on too.
            self.program.wait(math.inf)

    def pass_on(self) -> None:
        """Passes the lines of the program, up to a frame that has to wait until the one before it is answered."""
        while self.wrote:
            line, feed, rest = self.wrote.partition(b"\n")
            if not feed and not self.is_ended:
                return
            if not line.startswith(PUT):
                self.write(line + feed)
            elif feed and self.fault is None:
                if self.is_awaited():
                    return
                self.put(line + feed)
            self.wrote = rest

    def write(self, text: bytes) -> None:
        """Writes a line of the program that is not the driver's to standard output."""
        try:
            while text:
                text = text[os.write(1, text) :]
        except OSError as why:
            self.unwritten = why.strerror

    def answer(self, text: bytes) -> None:
        """Passes a line of the driver to the program, or a part of one, if it still wants it."""
        try:
            if not self.program.stdin.closed:
                os.write(self.program.stdin.fileno(), text)
        except OSError:
            self.close_input()

    def close_input(self) -> None:
        close(self.program.stdin)

    # The driver.

    def put(self, line: bytes) -> None:
        """Passes a frame to the driver, if it has written nothing since its last answer."""
        if not self.is_gone and readable([self.driver.stdout], 0):
            self.hear()
        if self.is_gone:
            raise Gone(f"before it answered frame {self.frames + 1}")
        self.frames += 1
        self.until = time.monotonic() + self.seconds
        if self.tells:
            self.tells.put(line)
        try:
            is_taken = os.write(self.driver.stdin.fileno(), line) == len(line)
        except BlockingIOError:
            is_taken = False
        except OSError as why:
            raise Gone(f"before it answered frame {self.frames}") from why
        if not is_taken:
            raise Fault(f"the driver does not read its lines, of which {self.frames} were written")

    def hear(self) -> None:
        """Takes what the driver wrote, and passes it on as far as it was asked for: up to a line feed. The program judges it, and sees of a line
        that is too long as much as tells that."""
        more = os.read(self.driver.stdout.fileno(), LITTLE)
        if not more:
            self.hear_end()
            return
        text, feed, rest = more.partition(b"\n") if self.is_awaited() else (b"", b"", more)
        self.check_asked(rest)
        room = LONGEST + 1 - len(self.told)
        self.told += text
        self.answer((text + feed)[:room])
        if len(self.told) > LONGEST:
            raise Fault(f"the driver answered frame {self.frames} with a line of more than {LONGEST} bytes: {shown(self.told)}")
        if feed:
            if self.tells:
                self.tells.answer(self.told)
            self.told, self.until = b"", math.inf

    def hear_end(self) -> None:
        """The driver writes no more."""
        self.is_gone = True
        if self.is_awaited():
            raise Gone(f"before it answered frame {self.frames}")
        self.close_input()

    def check_asked(self, text: bytes) -> None:
        """Whether the driver wrote nothing that was not asked for."""
        if text:
            when = f"after frame {self.frames}" if self.frames else "before the first frame"
            line, feed, _ = text.partition(b"\n")
            raise Fault(f"the driver wrote a line that was not asked for, {when}: {shown(line if feed else text)}")

    def look_for_rest(self) -> None:
        """What the driver, which has ended, wrote after its last answer. One that nobody waited for any more is none of it."""
        os.set_blocking(self.driver.stdout.fileno(), False)
        try:
            text = os.read(self.driver.stdout.fileno(), MUCH)
            self.check_asked(text.partition(b"\n")[2] if self.is_awaited() else text)
        except BlockingIOError:
            pass
        except Fault as fault:
            self.fault = self.fault or fault


def close(pipe: typing.IO[bytes]) -> None:
    """Closes an end of a pipe, if it is open."""
    if not pipe.closed:
        pipe.close()
