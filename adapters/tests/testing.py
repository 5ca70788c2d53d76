"""What the tests of the drivers are made of: a driver that runs, a small controller, and a server that plays lines."""

import collections.abc
import os
import pathlib
import select
import socket
import subprocess
import tempfile
import threading
import time
import typing

import lines

# The folder of the drivers.
HERE = pathlib.Path(__file__).resolve().parents[1]
MOST_FRAMES = 20000
OPENING = (("A100", 0), ("A5FF", 1), ("A5FF", 2), ("A700", 1), ("A700", 2))


class Driver:
    """A driver that runs, as the program has it."""

    def __init__(self, name: str, *words: str | int | pathlib.Path) -> None:
        pipes = {"stdin": subprocess.PIPE, "stdout": subprocess.PIPE, "stderr": subprocess.PIPE}
        # A driver flushes its answers by itself, not because its environment says so.
        env = {name: value for name, value in os.environ.items() if name != "PYTHONUNBUFFERED"}
        self.ran = subprocess.Popen([HERE / name, *map(str, words)], bufsize=0, env=env, **pipes)

    def __enter__(self) -> typing.Self:
        return self

    def __exit__(self, *_: object) -> None:
        self.ran.kill()
        for pipe in (self.ran.stdin, self.ran.stdout, self.ran.stderr):
            pipe.close()
        self.ran.wait()

    def line(self, seconds: float = 10) -> str:
        """The next line of its standard output; what it wrote so far where it writes none."""
        found = b""
        while not found.endswith(b"\n") and select.select([self.ran.stdout], [], [], seconds)[0]:
            more = self.ran.stdout.read(1)
            if not more:
                break
            found += more
        return found.decode()

    def say(self, text: str) -> None:
        self.ran.stdin.write(text.encode())

    def put(self, frame: str, asked: str = "tell", priority: int = 1, half: int = 0) -> str:
        self.say(f"put {priority} {frame} {asked}{f' pair {half}' if half else ''}\n")
        return self.line().removesuffix("\n")

    def end(self, text: str = "") -> tuple[str, str, int]:
        """What it still writes when its input ends with this text, what it says, and its status."""
        wrote, said = self.ran.communicate(text.encode(), timeout=10)
        return wrote.decode(), said.decode(), self.ran.returncode


class Controller:
    """Gives gear short addresses, by `put(frame, asked, priority, half)`."""

    def __init__(self, put: collections.abc.Callable[[str, str, int, int], str]) -> None:
        self.put, self.reserved, self.table, self.frames = put, {}, {}, 0

    def transact(self, *frames: tuple[str, str, int]) -> list[str]:
        """What is told of the frames of a transaction. It begins again where one was destroyed or lapsed."""
        while True:
            told = []
            for frame, asked, half in frames:
                self.frames += 1
                if self.frames > MOST_FRAMES:
                    raise RuntimeError("the commissioning has no end")
                told.append(self.put(frame, asked, 1 if told else 3, half))
                if told[-1] in ("destroyed", "lapsed"):
                    break
            else:
                return told

    def under(self, number: int, *frames: tuple[str, str, int]) -> list[str]:
        """A transaction under a search address."""
        search = (f"{byte:02X}{number >> place & 0xFF:02X}" for byte, place in ((0xB1, 16), (0xB3, 8), (0xB5, 0)))
        return self.transact(*((it, "tell", 0) for it in search), *frames)[3:]

    def is_below(self, number: int) -> bool:
        return self.under(number, ("A900", "ask", 0)) != ["silence"]

    def search(self) -> int | None:
        """The least random address, or None."""
        if not self.is_below(0xFFFFFE):
            return None
        low, high = 0, 0xFFFFFE
        while low < high:
            middle = (low + high) // 2
            low, high = (low, middle) if self.is_below(middle) else (middle + 1, high)
        return low

    def visit(self, number: int) -> None:
        """Gives the gear at this random address a short address, if it has none, and takes it out of the search."""
        told = self.under(number, ("BB00", "ask", 0))[0]
        if told == "byte FF":
            data = 2 * self.reserved.setdefault(number, len(self.reserved)) + 1
            given = ((f"B7{data:02X}", "tell", 0), (f"B9{data:02X}", "ask", 0), ("BB00", "ask", 0))
            told = self.under(number, *given)[2]
        byte = int(told[5:], 16) if told.startswith("byte ") else 0xFF
        if byte != 0xFF:
            self.table[byte >> 1] = number
            self.under(number, ("AB00", "tell", 0))

    def run(self, quiet: int = 1) -> dict[int, int]:
        """Commissions, until so many openings one after the other found nobody."""
        left = quiet
        while left:
            self.transact(*((frame, "tell", half) for frame, half in OPENING))
            left -= 1
            while (number := self.search()) is not None:
                self.visit(number)
                left = quiet
        self.transact(("A100", "tell", 0))
        return self.table


class Scripted(threading.Thread):
    """A server that plays one list of lines for each connection, and is gone after the last.

    `< HEX` is a request that has to come, `> HEX` is sent, `wait SECONDS` waits, `end` closes the connection at once. It counts the
    connections that were cut off.
    """

    def __init__(self, *connections: list[str]) -> None:
        super().__init__(daemon=True)
        self.connections, self.wrong, self.cut = connections, [], 0
        self.listener = socket.create_server(("127.0.0.1", 0))
        self.port = self.listener.getsockname()[1]
        self.start()

    def run(self) -> None:
        for at, them in enumerate(self.connections):
            client, _ = self.listener.accept()
            if at + 1 == len(self.connections):
                self.listener.close()
            with client:
                try:
                    self.play(client, them)
                except ConnectionError:
                    self.cut += 1

    def play(self, client: socket.socket, them: list[str]) -> None:
        for line in them:
            word, *rest = line.split()
            if word == "<":
                found = received(client, 4)
                if found != bytes.fromhex(" ".join(rest)):
                    self.wrong.append(f"{line}, and not {found.hex(' ')}")
            elif word == ">":
                client.sendall(bytes.fromhex(" ".join(rest)))
            elif word == "wait":
                time.sleep(float(rest[0]))
            else:
                return
        more = client.recv(4)
        if more:
            self.wrong.append(f"nothing more, and not {more.hex(' ')}")


def received(client: socket.socket, count: int) -> bytes:
    """So many bytes of a connection, or as many as come before its end."""
    found = b""
    while len(found) < count and (more := client.recv(count - len(found))):
        found += more
    return found


def recorded() -> list[str]:
    """A commissioning of two gear, as a stand-in is spoken to."""
    wrote = []
    with tempfile.TemporaryDirectory() as folder, Driver("tests/stand_in", 0, f"{folder}/site", "--gear", 2, "--seed", 1) as server:
        with socket.create_connection(("127.0.0.1", int(server.line()))) as client:

            def put(frame, asked, _priority, _half):
                request = bytes((2, 0)) + bytes.fromhex(frame)
                client.sendall(request)
                reply = received(client, 4)
                wrote.extend((f"< {request.hex(' ').upper()}", f"> {reply.hex(' ').upper()}"))
                if reply[1] == 1:
                    return lines.byte(reply[2])
                return "silence" if reply[1] == 0 else "damaged"

            Controller(put).run()
    return wrote
