"""A site whose bus hangs at examples/interface, in qemu: its board, and the serial line between it and a driver, with faults."""

import contextlib
import os
import pathlib
import random
import select
import socket
import struct
import subprocess
import threading
import time
import tty
import typing

from lib import commission_site, targets

INTERFACE = targets.ROOT / "examples/interface"
TARGET = targets.TARGETS["thumbv6m"]
# What it is linked of for each board, beside its own files; what it begins with there, and how it is linked.
BOARDS = {
    "simulated": (targets.AT_PINS, TARGET.start, TARGET.link),
    "stm32g0": (("pins.c",), [targets.BARE / it for it in ("aeabi.c", "memory.c")], ["-T", INTERFACE / "stm32g0.ld", "-e", "reset"]),
}
# The memory that outlives a board, as board_simulated.c has it: its head, one gear, and where gear and edges begin.
MEMORY, MADE = 16 << 20, 0xDA110001
HEAD, GEAR, GEAR_AT, EDGES_AT = struct.Struct("=4IQI6II"), struct.Struct("=IIBBBB"), 56, 824
MASK, MASK24, MOST_GEAR = 0xFF, 0xFFFFFF, 64
# What becomes of a line: a bit changes; bytes are lost; it is cut off in the middle of a byte; more bytes come; it comes twice; it comes in the
# next session; the device is unplugged in its middle.
FAULTS = ("flip", "lost", "cut", "noise", "twice", "late", "gone")


def built(library: pathlib.Path, folder: pathlib.Path, board: str = "simulated") -> pathlib.Path:
    """The firmware for a board."""
    others, start, link = BOARDS[board]
    sources = [INTERFACE / it for it in ("interface.c", "text.c", f"board_{board}.c")] + [targets.EXAMPLE / it for it in others]
    return targets.program(TARGET._replace(start=start, link=link), folder, sources, library, ["-I", str(INTERFACE)])


class Line:
    """The serial line between a driver and a board: bytes both ways, and now and then a fault.

    A plan says at which line of the driver something happens, and what: a fault of FAULTS, in one direction; or `kill`, by which the board is
    killed within the line, and switched on again if it is_again. A line is not passed before it is there as a whole.
    """

    def __init__(self, folder: pathlib.Path, chance: random.Random, kill: typing.Callable[[bool], None]) -> None:
        self.folder, self.chance, self.kill = folder, chance, kill
        self.device, self.board, self.plan, self.count, self.quiet_until, self.late = folder / "serial", None, None, 0, 0.0, {}
        self.is_over = False
        self.end = self.other = -1
        self.plug()
        self.thread = threading.Thread(target=self.run, daemon=True)
        self.thread.start()

    def plug(self) -> None:
        """A new serial port of the computer."""
        self.end, self.other = os.openpty()
        tty.setraw(self.other)
        with contextlib.suppress(FileNotFoundError):
            self.device.unlink()
        self.device.symlink_to(os.ttyname(self.other))

    def unplug(self) -> None:
        os.close(self.other)
        os.close(self.end)
        self.plug()

    def join(self, path: pathlib.Path) -> None:
        """The board has its end at this socket."""
        joined = socket.socket(socket.AF_UNIX)
        until = time.monotonic() + 20
        while True:
            try:
                joined.connect(str(path))
                break
            except OSError:
                if time.monotonic() > until:
                    raise
                time.sleep(0.02)
        self.board = joined

    def run(self) -> None:
        while not self.is_over:
            board = self.board
            found = select.select([it for it in (self.end, board) if it is not None], [], [], 0.05)[0]
            if self.end in found:
                self.pass_on(0, self.end)
            if board in found and not self.pass_on(1, board.fileno()) and self.board is board:
                self.board = None

    def pass_on(self, way: int, file: int) -> bool:
        """Passes what is there, with what is planned for it. Whether this end is whole."""
        try:
            raw = os.read(file, 4096)
        except OSError:
            raw = b""
        if not raw:
            time.sleep(0.01)
            return False
        if way == 0:
            self.count += raw.count(b"put ")
        if self.plan and self.count >= self.plan["at"] and way == self.plan.get("way", 0) and b" " in raw:
            plan, self.plan = self.plan, None
            raw = self.disturbed(plan, raw, way)
        if raw.lstrip().startswith((b"begin", b"begun")[way]):
            raw += self.late.pop(way, b"")
        if time.monotonic() >= self.quiet_until:
            self.put(way, raw)
        return True

    def put(self, way: int, raw: bytes) -> None:
        with contextlib.suppress(OSError):
            if way == 1:
                os.write(self.end, raw)
            elif self.board:
                self.board.sendall(raw)

    def disturbed(self, plan: dict[str, typing.Any], raw: bytes, way: int) -> bytes:
        """What is passed of a line."""
        chance, kind = self.chance, plan["kind"]
        at = chance.randrange(len(raw))
        if kind == "flip":
            return raw[:at] + bytes((raw[at] ^ 1 << chance.randrange(8),)) + raw[at + 1 :]
        if kind == "lost":
            return raw[:at] + raw[at + chance.randint(1, len(raw)) :]
        if kind == "noise":
            return raw[:at] + chance.randbytes(chance.randint(1, 80)) + raw[at:]
        if kind == "twice":
            return raw + raw
        if kind == "late":
            # It comes in the next session.
            self.late[way] = raw
            return b""
        if kind == "cut":
            # In the middle of a byte: the rest of its bits are ones, and nothing more comes for a time.
            self.put(way, raw[:at] + bytes((raw[at] | 0xFF << chance.randrange(1, 8) & 0xFF,)))
            self.quiet_until = time.monotonic() + chance.uniform(0.1, 5)
            return b""
        self.put(way, raw[:at])
        if kind == "gone":
            self.unplug()
        else:
            self.kill(plan["is_again"])
        return b""

    def close(self) -> None:
        self.is_over = True
        self.thread.join()
        for it in (self.end, self.other):
            os.close(it)
        if self.board:
            self.board.close()


class Site(commission_site.Place):
    """A place whose gear hang at a simulated board."""

    def __init__(self, checks: commission_site.Checks, title: str, program: str, firmware: pathlib.Path, count: int, seed: int) -> None:
        super().__init__(checks, title, program)
        self.firmware, self.memory, self.qemu, self.lives = firmware, self.folder / "site", None, 0
        head = HEAD.pack(MADE, 0, 0, 0, seed, 0, 0, 0, 0, 0, 0, 0, count)
        rows = GEAR.pack(MASK24, MASK24, 0, MASK, 0, 0) * MOST_GEAR
        self.memory.write_bytes((head + rows).ljust(MEMORY, b"\0"))
        self.line = Line(self.folder, random.Random(seed), self.kill_board)
        self.switch_on()

    def __exit__(self, *why: typing.Any) -> bool:
        self.switch_off()
        self.line.close()
        return super().__exit__(*why)

    def switch_on(self) -> None:
        self.lives += 1
        path = self.folder / f"board-{self.lives}"
        words = [*targets.BOARD, "-object", f"memory-backend-file,id=site,size={MEMORY},mem-path={self.memory},share=on"]
        words[words.index("-serial") + 1] = f"unix:{path},server=on,wait=off"
        words[words.index("stdio,id=said")] = f"file,id=said,path={self.folder / 'board-said'}"
        words += ["-M", "mps2-an385,memory-backend=site", "-kernel", str(self.firmware)]
        with open(self.folder / "qemu-said", "a") as said:
            self.qemu = subprocess.Popen(words, stdin=subprocess.DEVNULL, stdout=said, stderr=said)
        self.line.join(path)

    def switch_off(self) -> None:
        self.qemu.kill()
        self.qemu.wait()

    def kill_board(self, is_again: bool) -> None:
        self.switch_off()
        if is_again:
            self.switch_on()

    def is_on(self) -> bool:
        return self.qemu.poll() is None

    def driver(self) -> list[str]:
        return [str(targets.ROOT / "adapters/serial"), str(self.line.device)]

    def hang_after(self, frames: int) -> None:
        """The board hangs after so many frames more."""
        with open(self.memory, "r+b") as file:
            file.seek(4)
            file.write(struct.pack("=I", frames))

    def head(self) -> tuple[int, ...]:
        with open(self.memory, "rb") as file:
            return HEAD.unpack(file.read(HEAD.size))

    def gear(self) -> list[tuple[int | None, int]]:
        with open(self.memory, "rb") as file:
            raw = file.read(EDGES_AT)
        rows = [GEAR.unpack_from(raw, GEAR_AT + at * GEAR.size) for at in range(self.head()[-1])]
        return [(None if it[3] == MASK else it[3] >> 1, it[0]) for it in rows]

    def is_released(self) -> bool:
        """Whether the bus comes to rest soon; that of a board that is off has no such time."""
        until = time.monotonic() + 10
        while self.is_on() and time.monotonic() < until:
            with open(self.memory, "rb") as file:
                file.seek(EDGES_AT + 4 * (self.head()[2] - 1))
                if not file.read(1)[0] & 1:
                    return True
            time.sleep(0.05)
        return not self.is_on()

    def trace(self) -> str:
        """The levels of the bus, as a value change dump."""
        count = self.head()[2]
        with open(self.memory, "rb") as file:
            file.seek(EDGES_AT)
            edges = struct.unpack(f"={count}I", file.read(4 * count))
        now, said = 0, ["$timescale 1 us $end\n$var wire 1 ! bus $end\n$enddefinitions $end\n#0\n1!\n"]
        for it in edges:
            now += it >> 1
            said.append(f"#{now}\n{0 if it & 1 else 1}!\n")
        return "".join([*said, f"#{now + 100000}\n"])
