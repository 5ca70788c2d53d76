"""Stands between the program `dali_commission` and a driver, passes their lines, and does what a test wants at one of them.

    commission_between.py PLAN

PLAN is JSON:

    driver      the words of the driver. The bus of adapters/simulated is one of this process, which costs half of the time
    report      a file in which stands at the end how many lines of the program were seen, and whether it was killed
    watch       a file of records, and a folder: at each PROGRAM SHORT ADDRESS the file and its log are copied there, before the
                driver has the frame. The copy's name has the number of the line, the short address and the search address
    kill        {pid, byte, count, moment, delay, is_cut}: the program is killed at the count-th frame with this address byte
                (null: with any): `before` the driver has the frame, `unheard`, before the program is told of it, or `after`,
                so many seconds later. Where it is_cut, the driver is killed with it; if pid is null, the driver alone is
    garbled     address byte and opcode byte of a frame: when the driver tells silence of it, the program is told `damaged`
    fault       {at, kind, text}: at this line, `text` is told in hexadecimal digits, and then no more where `kind` is `ends`.
                `mute` tells nothing and waits, `stalls` does until its input ends, `closed` reads no more. Where `kind` is
                `ahead` or `beside`, the driver has the frame, and `text` is told before its answer, or together with it
"""

import argparse
import json
import os
import pathlib
import signal
import subprocess
import sys
import time
import typing

ADAPTERS = pathlib.Path(__file__).resolve().parents[2] / "adapters"
sys.path.append(str(ADAPTERS))
import gear
import lines

PROGRAM_SHORT = 0xB7
# The bits of the search address that SEARCHADDRH, SEARCHADDRM and SEARCHADDRL set begin here.
PLACES = {0xB1: 16, 0xB3: 8, 0xB5: 0}


class End(Exception):
    """Nothing is passed any more."""


class Driver:
    """A driver that is a process."""

    def __init__(self, words: list[str]) -> None:
        self.process = subprocess.Popen(words, stdin=subprocess.PIPE, stdout=subprocess.PIPE)

    def put(self, line: bytes) -> bytes:
        """What it tells of a frame."""
        try:
            self.process.stdin.write(line)
            self.process.stdin.flush()
        except BrokenPipeError as why:
            raise End from why
        told = self.process.stdout.readline()
        if not told:
            raise End
        return told

    def kill(self) -> None:
        self.process.kill()

    def end(self) -> int:
        """Its status, at the end of its input."""
        self.process.stdin.close()
        try:
            return self.process.wait(20)
        except subprocess.TimeoutExpired:
            self.process.kill()
            return self.process.wait()


class Simulated:
    """The driver adapters/simulated, in this process."""

    def __init__(self, words: list[str]) -> None:
        options, self.fault = argparse.ArgumentParser(), None
        gear.add_words(options)
        try:
            self.bus = gear.Bus(options.parse_args(words))
        except lines.Fault as fault:
            self.fault = fault

    def put(self, line: bytes) -> bytes:
        if self.fault or not (form := lines.PUT.fullmatch(line)):
            raise End
        _, frame, asked, _ = form.groups()
        return f"{self.bus.put(bytes.fromhex(frame.decode()), asked == b'ask')}\n".encode()

    def kill(self) -> None:
        """Its gear's file is always whole."""

    def end(self) -> int:
        if self.fault:
            print(f"simulated: {self.fault}", file=sys.stderr)
        return 1 if self.fault else 0


class Between:
    def __init__(self, plan: dict[str, typing.Any]) -> None:
        self.plan, self.lines, self.counted, self.search = plan, 0, 0, 0xFFFFFF
        self.kill, self.fault, self.was_killed = plan.get("kill"), plan.get("fault"), False
        program, *words = plan["driver"]
        self.driver = Simulated(words) if program == str(ADAPTERS / "simulated") else Driver(plan["driver"])

    def do_kill(self) -> typing.NoReturn:
        if self.kill["pid"]:
            os.kill(self.kill["pid"], signal.SIGKILL)
        self.was_killed = True
        if self.kill["is_cut"]:
            self.driver.kill()
        raise End

    def is_time(self, address_byte: int) -> bool:
        """Whether the program is to be killed at a frame."""
        if self.kill and self.kill["byte"] in (None, address_byte):
            self.counted += 1
            return self.counted == self.kill["count"]
        return False

    def copy(self, opcode_byte: int) -> None:
        records, folder = self.plan["watch"]
        name = f"{self.lines}-{opcode_byte >> 1}-{self.search}"
        for end in ("", "-wal"):
            source = pathlib.Path(f"{records}{end}")
            if source.exists():
                pathlib.Path(folder, f"{name}.db{end}").write_bytes(source.read_bytes())

    def do_fault(self) -> None:
        """What is told in place of the driver's answer."""
        if self.fault["kind"] == "closed":
            os.close(0)
        os.write(1, bytes.fromhex(self.fault["text"]))
        if self.fault["kind"] == "stalls":
            sys.stdin.buffer.read()
        if self.fault["kind"] in ("mute", "closed"):
            time.sleep(3600 if self.fault["kind"] == "mute" else 1)
        if self.fault["kind"] != "goes on":
            raise End

    def tell_too_much(self, line: bytes) -> None:
        """Tells a line that was not asked for, and the driver's answer."""
        text = bytes.fromhex(self.fault["text"])
        if self.fault["kind"] == "ahead":
            os.write(1, text)
            os.write(1, self.driver.put(line))
        else:
            os.write(1, self.driver.put(line) + text)

    def take(self, line: bytes) -> None:
        """Passes a line of the program, and the answer to it."""
        self.lines += 1
        address_byte, opcode_byte = bytes.fromhex(line.split()[2].decode())
        if address_byte in PLACES:
            self.search = self.search & ~(0xFF << PLACES[address_byte]) | opcode_byte << PLACES[address_byte]
        if address_byte == PROGRAM_SHORT and self.plan.get("watch"):
            self.copy(opcode_byte)
        if self.fault and self.fault["at"] == self.lines:
            if self.fault["kind"] in ("ahead", "beside"):
                self.tell_too_much(line)
            else:
                self.do_fault()
            return
        moment = self.kill["moment"] if self.is_time(address_byte) else None
        if moment == "before":
            self.do_kill()
        told = self.driver.put(line)
        if told == b"silence\n" and self.plan.get("garbled") == [address_byte, opcode_byte]:
            told = b"damaged\n"
        if moment == "unheard":
            self.do_kill()
        os.write(1, told)
        if moment == "after":
            time.sleep(self.kill["delay"])
            self.do_kill()

    def run(self) -> None:
        try:
            while line := sys.stdin.buffer.readline():
                self.take(line)
        except (End, BrokenPipeError):
            pass
        self.end()

    def end(self) -> None:
        report = {"lines": self.lines, "was_killed": self.was_killed, "driver": self.driver.end()}
        pathlib.Path(self.plan["report"]).write_text(json.dumps(report))


if __name__ == "__main__":
    Between(json.loads(sys.argv[1])).run()
