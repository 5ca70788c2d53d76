"""Serves the page of a bus on the network of a site, too, to devices that were let in: `page --listen ADDRESS`.

A new device types a code of six digits, which the computer shows, and says its name. Each code lets one device in; after five wrong ones there
is another code. A device has an address of its own from then on, until it is shut out or the page ends. One page leads, and the others see: at
first the computer's own. What goes over the network is not encrypted.
"""

import base64
import dataclasses
import hmac
import http.server
import json
import secrets
import shutil
import subprocess
import sys
import threading
import time
import typing

from yolgibat import ROOT, serving, standard

PAGE = ROOT / "yolgibat/join.html"
# How many wrong codes there may be, how many seconds each takes, how many devices there may be, and how long a name is.
TRIES, WAITS, MOST, LONGEST = 5, 1.0, 16, 40
# After how many seconds without a request a device is away.
AWAY = 10


@dataclasses.dataclass
class Device:
    """A device that was let in: its number, its name, the token of its address, and when it asked for something last."""

    number: int
    name: str
    token: str
    seen: float


class Devices:
    """The devices of a page. Number 0 is the computer itself."""

    def __init__(self, address: str) -> None:
        self.address, self.lock, self.joining = address, threading.Lock(), threading.Lock()
        self.all: list[Device] = []
        self.leader, self.last = 0, 0
        self.renew()

    def renew(self) -> None:
        """Makes another code, and says it."""
        self.code, self.tries = f"{secrets.randbelow(10**6):06}", 0
        standard.say(f"another device: open {self.address} there, and type {self.code}")

    def let_in(self, code: str, name: str) -> Device | None:
        """Lets a device in if this is the code. One device at a time may try."""
        with self.joining:
            is_right = hmac.compare_digest(code.encode(), self.code.encode()) and len(self.all) < MOST
            if not is_right:
                time.sleep(WAITS)
                self.tries += 1
            with self.lock:
                if is_right:
                    self.last += 1
                    self.all.append(Device(self.last, name, secrets.token_urlsafe(24), time.monotonic()))
                    standard.say(f"the device '{name}' was let in")
                if is_right or self.tries == TRIES:
                    self.renew()
                return self.all[-1] if is_right else None

    def of(self, token: str) -> Device | None:
        """The device whose address has this token."""
        with self.lock:
            found = [it for it in self.all if hmac.compare_digest(it.token.encode(), token.encode())]
            for it in found:
                it.seen = time.monotonic()
            return found[0] if found else None

    def lead(self, number: int) -> None:
        with self.lock:
            self.leader = number

    def shut_out(self, number: int) -> None:
        """Shuts a device out. If it led, the computer leads."""
        with self.lock:
            self.all = [it for it in self.all if it.number != number]
            self.leader = 0 if self.leader == number else self.leader

    def state(self, own: int) -> dict[str, typing.Any]:
        """What a page shows of them. The code is for the computer alone."""
        with self.lock:
            now = time.monotonic()
            them = [{"number": it.number, "name": it.name, "here": now - it.seen < AWAY, "leads": it.number == self.leader} for it in self.all]
            shown = {"code": self.code, "address": self.address, "picture": picture(self.address)} if own == 0 else {}
            return {"own": own, "leads": self.leader == own, "devices": them, **shown}


def made(words: list[str]) -> bytes:
    """What `qrencode` makes, if it is there."""
    if not shutil.which("qrencode"):
        return b""
    return subprocess.run(["qrencode", *words], stdin=subprocess.DEVNULL, stdout=subprocess.PIPE, stderr=subprocess.DEVNULL, check=False).stdout


PICTURES: dict[str, str] = {}


def picture(address: str) -> str:
    """A picture of an address that a phone reads, or nothing."""
    if address not in PICTURES:
        drawn = made(["-t", "SVG", "-o", "-", address])
        PICTURES[address] = "data:image/svg+xml;base64," + base64.b64encode(drawn).decode() if drawn else ""
    return PICTURES[address]


class Server(serving.Server):
    """What devices ask. It has the pages and the bus of the computer's own server."""

    def __init__(self, own: serving.Server, host: str) -> None:
        self.join_pages, self.join_policy = serving.prepared(PAGE)
        super().__init__(own.bus, own.server_address[1], "", Handler, host)
        own.devices = self.devices = Devices(f"http://{self.hosts[0]}/")


class Handler(serving.Handler):
    """A request of a device."""

    device = None

    def who(self) -> int:
        return self.device.number

    def asked(self) -> str:
        """What is asked for: to be let in, or something of the page, under the address of a device."""
        if len(self.path) > serving.LONGEST:
            raise serving.Refused(414, "the address is too long")
        self.refuse_others(True)
        token, slash, what = self.path.removeprefix("/").partition("/")
        if token in ("", "join"):
            return f"in:{token}"
        self.device = self.server.devices.of(token)
        if not self.device:
            raise serving.Refused(303, "this device is not let in", ("Location", "/"))
        if not slash:
            raise serving.Refused(308, "the page is there", ("Location", f"/{token}/"))
        return what

    def do_GET(self) -> None:
        self.server.note_whole(self.connection)
        self.answer({**self.shown(), "in:": self.show_join})

    def do_POST(self) -> None:
        self.answer({**self.done(), "in:join": self.join})

    def show_join(self) -> None:
        self.write(200, "text/html", self.server.join_pages[self.language()], policy=self.server.join_policy)

    def join(self) -> None:
        asked = self.body()
        code, name = asked.get("code"), asked.get("name")
        if not isinstance(code, str) or not isinstance(name, str) or not 0 < len(name.strip()) <= LONGEST or not name.isprintable():
            raise serving.Refused(400, "a code and a name are wanted", ("Why", "code"))
        device = self.server.devices.let_in(code.strip(), name.strip())
        if not device:
            raise serving.Refused(403, "this is not the code", ("Why", "code"))
        self.write(200, "application/json", json.dumps({"token": device.token}))


def listen(own: serving.Server, host: str) -> http.server.ThreadingHTTPServer:
    """Listens at an address of this computer, too."""
    standard.say("the page is on the network, without encryption: whoever can listen there can read all, and act as one of the devices")
    server = Server(own, host)
    if sys.stderr.isatty() and (drawn := made(["-t", "ANSIUTF8", "-o", "-", server.devices.address])):
        standard.say(drawn.decode())
    threading.Thread(target=server.serve_forever, daemon=True).start()
    return server
