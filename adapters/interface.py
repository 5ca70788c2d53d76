"""The lines between adapters/serial and an interface by examples/interface, as docs/INTERFACE.md has them, over a serial port of Linux."""

import errno
import fcntl
import grp
import os
import re
import secrets
import select
import sys
import termios
import time
import tty
import zlib

import lines

VERSION = 1
SPEEDS = {int(name[1:]): getattr(termios, name) for name in dir(termios) if re.fullmatch(r"B[1-9]\d+", name)}
# In seconds: how long an answer takes at most; how long is waited for that to `begin`, and how often it is asked for.
ANSWER, BEGIN, TRIES = 3.0, 1.2, 3
# The longest line of an interface, and how much is shown of what is none.
LONGEST, SHOWN = 64, 32
ANSWERS = re.compile(rb"silence|byte [0-9A-F]{2}|damaged|destroyed|lapsed")
BEGUN = re.compile(rb"begun ([0-9A-F]{8}) ([0-9A-F]{2})")


class Broken(Exception):
    """What came is not the answer that was awaited, or none came: the session is over."""


def summed(text: str) -> bytes:
    """A line with its sum."""
    return f"{text} {zlib.crc32(text.encode()):08X}\n".encode()


def checked(line: bytes) -> bytes | None:
    """What stands before the sum of a line, or None if the sum is not right."""
    text, _, found = line.rpartition(b" ")
    return text if found == b"%08X" % zlib.crc32(text) else None


class Port:
    """An open serial port, raw. What goes wrong with it is a fault that ends the driver."""

    def __init__(self, device: str, speed: int) -> None:
        self.device, self.read = device, b""
        try:
            self.file = os.open(device, os.O_RDWR | os.O_NOCTTY | os.O_NONBLOCK | os.O_CLOEXEC)
        except OSError as why:
            raise self.fault(why) from why
        lines.alone(device, lambda: fcntl.flock(self.file, fcntl.LOCK_EX | fcntl.LOCK_NB))
        try:
            self.set_up(SPEEDS[speed])
        except termios.error as why:
            raise lines.Fault(f"{device}: it is no serial port, or not at this speed") from why

    def set_up(self, speed: int) -> None:
        """Bytes as they are, eight bits, one stop bit, without flow control. The port is not hung up when it is closed, which resets some boards."""
        tty.setraw(self.file)
        how = termios.tcgetattr(self.file)
        how[2] = how[2] & ~(termios.CSIZE | termios.PARENB | termios.CSTOPB | termios.CRTSCTS | termios.HUPCL) | termios.CS8 | termios.CLOCAL | termios.CREAD
        how[4] = how[5] = speed
        termios.tcsetattr(self.file, termios.TCSAFLUSH, how)

    def fault(self, why: OSError) -> lines.Fault:
        if why.errno == errno.ENOENT:
            return lines.Fault(f"{self.device}: there is no such device: is the interface connected? ls /dev/serial/by-id shows those that are")
        if why.errno == errno.EACCES:
            return lines.Fault(f"{self.device}: you may not use it. The group {self.group()} may: sudo usermod -aG {self.group()} \"$USER\", then log in again")
        if why.errno in (errno.EIO, errno.ENXIO, errno.ENODEV):
            return lines.Fault(f"{self.device}: the device is gone")
        return lines.Fault(f"{self.device}: {why.strerror}")

    def group(self) -> str:
        try:
            return grp.getgrgid(os.stat(self.device).st_gid).gr_name
        except (OSError, KeyError):
            return "dialout"

    def write(self, raw: bytes, until: float) -> None:
        while raw:
            if not select.select([], [self.file], [], max(until - time.monotonic(), 0))[1]:
                raise Broken("it takes no bytes")
            try:
                raw = raw[os.write(self.file, raw) :]
            except OSError as why:
                raise self.fault(why) from why

    def line(self, until: float) -> bytes | None:
        """The next line, without its end; None if there is none until then."""
        while b"\n" not in self.read:
            if not select.select([self.file], [], [], max(until - time.monotonic(), 0))[0]:
                return None
            try:
                more = os.read(self.file, 256)
            except OSError as why:
                raise self.fault(why) from why
            if not more:
                raise self.fault(OSError(errno.EIO, ""))
            self.read = (self.read + more)[-4 * LONGEST :]
        found, _, self.read = self.read.partition(b"\n")
        return found


class Interface:
    """An interface at a serial port, in a session."""

    def __init__(self, port: Port) -> None:
        self.port, self.number, self.heard = port, 0, b""
        self.begin()

    def begin(self) -> None:
        """Begins a session: what the interface had of another one is not sent any more."""
        self.heard = self.port.read
        for _ in range(TRIES):
            session = f"{secrets.randbits(32):08X}"
            try:
                # The end of a line comes first, since a line may have been cut off.
                self.port.write(b"\n" + summed(f"begin {session}"), time.monotonic() + BEGIN)
            except Broken:
                continue
            if self.has_begun(session):
                self.session, self.number = session, 0
                return
        said = f"it is no interface, or at another --speed: it wrote {self.heard[-SHOWN:]!r}" if self.heard else "the interface does not answer"
        raise lines.Fault(f"{self.port.device}: {said}")

    def has_begun(self, session: str) -> bool:
        """Whether a session was answered in time."""
        until = time.monotonic() + BEGIN
        while (line := self.port.line(until)) is not None:
            text = checked(line)
            found = BEGUN.fullmatch(text or b"")
            if found and found[1] == session.encode():
                if int(found[2], 16) != VERSION:
                    raise lines.Fault(f"{self.port.device}: the interface speaks version {int(found[2], 16)} of the lines, and this driver version {VERSION}")
                return True
            self.heard += line if text is None else b""
        self.heard += self.port.read
        return False

    def ask(self, text: str) -> str:
        """The answer to a line."""
        if (line := self.port.line(time.monotonic())) is not None or self.port.read:
            raise Broken(f"it wrote {(line or self.port.read)[:SHOWN]!r}, which was not asked for")
        until, self.number = time.monotonic() + ANSWER, (self.number + 1) % 256
        head = f"{self.session} {self.number:02X} "
        self.port.write(summed(head + text), until)
        line = self.port.line(until)
        told = checked(line or b"")
        if line is None or told is None or not told.startswith(head.encode()) or not ANSWERS.fullmatch(told[len(head) :]):
            raise Broken("it did not answer" if line is None else f"it wrote {line[:SHOWN]!r}")
        return told[len(head) :].decode()

    def send(self, priority: int, frame: bytes, is_question: bool, half: int) -> str:
        """Sends a frame, and tells what came of it. If that is not known, it may have been destroyed: it is not sent later, since the
        interface begins anew."""
        try:
            return self.ask(f"put {priority} {frame.hex().upper()} {'ask' if is_question else 'tell'}{f' pair {half}' if half else ''}")
        except Broken as why:
            print(f"serial: {self.port.device}: {why}; the interface begins anew", file=sys.stderr, flush=True)
            self.begin()
            return lines.DESTROYED
