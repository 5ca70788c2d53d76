"""A SPI port of Linux, as spidev has it: a transfer shifts so many bits out and as many in, at a fixed clock."""

import ctypes
import errno
import fcntl
import os
import struct
import time

import lines

# Numbers and structs of linux/spi/spidev.h.
MESSAGE, WRITE_MODE, WRITE_BITS, WRITE_SPEED = 0x40206B00, 0x40016B01, 0x40016B03, 0x40046B04
TRANSFER = struct.Struct("=QQIIHBBBBBB")
MODE, BITS = 0, 8
SAID = {
    errno.ENOENT: "there is no such device: is SPI switched on?",
    errno.EACCES: "you may not use it: its group may",
    errno.ENOTTY: "it is no SPI port",
    errno.EINVAL: "the port refuses this speed or length",
    errno.EMSGSIZE: "a transfer is longer than the port takes: raise bufsiz of spidev",
    errno.ENODEV: "the device is gone",
    errno.ENXIO: "the device is gone",
    errno.ESHUTDOWN: "the device is gone",
}


# The priority that a driver asks for, of 1 to 99.
PRIORITY = 50


def ask_for_priority() -> str | None:
    """Asks for a real-time priority, so that transfers are not late on a loaded machine. Why there is none, or None."""
    try:
        os.sched_setscheduler(0, os.SCHED_FIFO, os.sched_param(PRIORITY))
    except OSError as why:
        return f"no real-time priority ({why.strerror}): on a loaded machine frames are late and told as destroyed. Root may have it, and `chrt -f {PRIORITY}` gives it"
    return None


class Port:
    """An open port. What goes wrong with it is a fault that ends the driver."""

    def __init__(self, device: str, speed: int) -> None:
        self.device, self.speed = device, speed
        try:
            self.file = os.open(device, os.O_RDWR | os.O_CLOEXEC)
        except OSError as why:
            raise self.fault(why) from why
        lines.alone(device, lambda: fcntl.flock(self.file, fcntl.LOCK_EX | fcntl.LOCK_NB))
        for request, value in ((WRITE_MODE, struct.pack("=B", MODE)), (WRITE_BITS, struct.pack("=B", BITS)), (WRITE_SPEED, struct.pack("=I", speed))):
            self.call(request, bytearray(value))

    def fault(self, why: OSError) -> lines.Fault:
        return lines.Fault(f"{self.device}: {SAID.get(why.errno, why.strerror)}")

    def call(self, request: int, value: bytearray) -> int:
        try:
            return fcntl.ioctl(self.file, request, value, True)
        except OSError as why:
            raise self.fault(why) from why

    def now(self) -> int:
        """The time, in microseconds."""
        return time.monotonic_ns() // 1000

    def transfer(self, out: bytes) -> tuple[bytes, int, int]:
        """Shifts bytes out. What was shifted in, and when that began and ended, at the earliest and at the latest."""
        sent, heard = ctypes.create_string_buffer(out, len(out)), ctypes.create_string_buffer(len(out))
        given = (ctypes.addressof(sent), ctypes.addressof(heard), len(out), self.speed, 0, BITS, 0, 0, 0, 0, 0)
        asked = bytearray(TRANSFER.pack(*given))
        begun = self.now()
        count = self.call(MESSAGE, asked)
        ended = self.now()
        if count != len(out):
            raise lines.Fault(f"{self.device}: {count} of {len(out)} bytes were transferred")
        return heard.raw, begun, ended
