"""Serves a page on the loopback, to whom its address was told: page.py says how."""

import base64
import collections.abc
import contextlib
import fcntl
import functools
import hashlib
import hmac
import http.server
import json
import os
import pathlib
import re
import secrets
import signal
import socket
import threading
import time
import typing
import urllib.request
import webbrowser

from yolgibat import ROOT, command, commanding, joining, places, standard, story, texts, viewer, walking

LOOPBACK = "127.0.0.1"
PAGE = ROOT / "yolgibat/page.html"
# How many bytes the target of a request may have, and its body; how many requests are answered at once, in how many seconds each.
LONGEST, BODY, LANES, PATIENCE = 512, 8192, 32, 5
NUMBER = re.compile("[0-9]{1,9}")
# After how many seconds it is looked again whether a page is there.
LOOKS = 0.2
# An address that was kept: its port and its token.
KEPT = re.compile(r"http://127\.0\.0\.1:([0-9]{1,5})/([A-Za-z0-9_-]{32})/")
# Who may ask: a browser says where a request comes from.
OWN = ("same-origin", "none")
# What stands around all pages, and what is put in: the page, what all have in common, its language, and its texts as JSON.
FRAME, OWN_PART = ROOT / "yolgibat/frame.html", "/*PAGE*/"
COMMON = {"/*STYLE*/": ROOT / "yolgibat/page.css", "/*COMMON*/": ROOT / "yolgibat/page.js"}
LANGUAGE, TEXTS = '<html lang="en">', "/*TEXTS*/"


class Refused(Exception):
    """Why a request is refused: its status and a text, and a header if one says more."""

    def __init__(self, status: int, text: str, *more: tuple[str, str]) -> None:
        super().__init__(text)
        self.status, self.more = status, more


def hashed(text: str, tag: str) -> str:
    """What a policy says of the elements of this kind that have no attribute."""
    found = re.findall(rf"<{tag}>(.*?)</{tag}>", text, re.S)
    return " ".join("'sha256-" + base64.b64encode(hashlib.sha256(it.encode()).digest()).decode() + "'" for it in found)


def policy(page: str) -> str:
    """What a page may do: run its own script, look as it says, and ask its server."""
    own = f"default-src 'none'; script-src {hashed(page, 'script')}; style-src {hashed(page, 'style')}; "
    return own + "connect-src 'self'; img-src data:; base-uri 'none'; form-action 'none'; frame-ancestors 'none'"


def source(file: pathlib.Path) -> str:
    """A page in no language."""
    text = FRAME.read_text(encoding="utf-8").replace(OWN_PART, file.read_text(encoding="utf-8"), 1)
    for mark, common in COMMON.items():
        text = text.replace(mark, common.read_text(encoding="utf-8"), 1)
    return text


def filled(page: str, language: str) -> str:
    """The page in a language."""
    words = json.dumps(texts.of(language), ensure_ascii=False).replace("<", "\\u003c")
    return page.replace(LANGUAGE, f'<html lang="{language}">', 1).replace(TEXTS, words, 1)


def prepared(file: pathlib.Path) -> tuple[dict[str, str], str]:
    """A page in each language, and what it may do."""
    page = source(file)
    return {it: filled(page, it) for it in texts.languages()}, policy(page)


class Kept(typing.NamedTuple):
    """What is kept of the address of the page before, if anything."""

    port: int = 0
    token: str = ""


def kept_of(opened: typing.TextIO) -> Kept:
    """What a file keeps, unless others could read it."""
    opened.seek(0)
    found = KEPT.fullmatch(opened.read(512).strip())
    is_own = os.fstat(opened.fileno()).st_mode & 0o077 == 0
    os.fchmod(opened.fileno(), 0o600)
    return Kept(int(found[1]), found[2]) if found and is_own and int(found[1]) < 1 << 16 else Kept()


def is_served(address: str) -> bool:
    """Whether a page is served there."""
    try:
        opener = urllib.request.build_opener(urllib.request.ProxyHandler({}))
        return bool(address) and opener.open(address, timeout=5).status == 200
    except (OSError, ValueError):
        return False


def locked(file: pathlib.Path) -> typing.TextIO | None:
    """Opens a file that one page alone may have, and which is still at its path then; or None, if another page is served. A command that an
    earlier page began may keep it locked, too: the lock of a page is that of its process alone."""
    while True:
        opened = os.fdopen(os.open(file, os.O_RDWR | os.O_CREAT, 0o600), "r+", errors="replace")
        try:
            fcntl.lockf(opened, fcntl.LOCK_EX | fcntl.LOCK_NB)
            if os.path.exists(file) and os.path.samestat(os.fstat(opened.fileno()), os.stat(file)):
                break
        except OSError:
            address = opened.read()
            if is_served(address):
                print(address, flush=True)
                standard.say("a page is served over these records already, at this address")
                return None
            time.sleep(LOOKS)
        opened.close()
    try:
        fcntl.flock(opened, fcntl.LOCK_EX | fcntl.LOCK_NB)
    except BlockingIOError:
        standard.say("a command still works on the bus: this page follows it")
    return opened


def served(make: collections.abc.Callable[[int, str], "Server"], port: int, kept: Kept) -> "Server":
    """The server at the port that is wanted; if none is, at the kept one, or at a free one if that is taken."""
    if not port and kept.port:
        try:
            return make(kept.port, kept.token)
        except OSError:
            standard.say(f"port {kept.port}, which the page had before, is taken: its address is another one now")
    return make(port, kept.token)


def serve(
    make: collections.abc.Callable[[int, str], "Server"], opened: typing.TextIO | None, port: int, is_opened: bool,
    beside: collections.abc.Callable[["Server"], object] = id,
) -> int:
    """Serves until a signal comes, at an address that a file keeps, if there is one; then all ends that goes on. What is served beside it begins
    with it. The status."""
    server, came = served(make, port, kept_of(opened) if opened else Kept()), []

    def stop(number: int, _frame: object) -> None:
        came.append(number)
        threading.Thread(target=server.shutdown).start()

    for number in joining.PASSED:
        if signal.getsignal(number) != signal.SIG_IGN:
            signal.signal(number, stop)
    server.tell(opened, is_opened)
    beside(server)
    server.serve_forever()
    server.end()
    return 128 + came[0]


class Server(http.server.ThreadingHTTPServer):
    daemon_threads, request_queue_size = True, 64

    # The devices on the network that were let in, if any may be.
    devices: typing.Any = None

    def __init__(
        self, bus: commanding.Bus | None, port: int, token: str = "", handler: type["Handler"] | None = None, host: str = LOOPBACK
    ) -> None:
        self.bus, self.token, self.lanes = bus, token or secrets.token_urlsafe(24), threading.BoundedSemaphore(LANES)
        # The connections whose request is not whole yet, the oldest first.
        self.half_open, self.lock = {}, threading.Lock()
        self.pages, self.policy = prepared(PAGE)
        self.viewer_policy = policy(story.VIEWER.read_text(encoding="utf-8"))
        super().__init__((host, port), handler or Handler)
        self.hosts = [f"{it}:{self.server_address[1]}" for it in ((host, "localhost") if host == LOOPBACK else (host,))]

    def address(self) -> str:
        return f"http://{self.hosts[0]}/{self.token}/"

    def tell(self, opened: typing.TextIO | None, is_opened: bool) -> None:
        """Says where the page is served, also in a file, and starts a browser with it if that is wanted."""
        if opened:
            opened.seek(0)
            opened.truncate()
            print(self.address(), end="", file=opened, flush=True)
        print(self.address(), flush=True)
        standard.say("open this address in a browser; interrupt this program when you are done")
        if is_opened:
            threading.Thread(target=webbrowser.open, args=(self.address(),), daemon=True).start()

    def end(self) -> None:
        """Stops what goes on, and waits for its end."""
        if self.bus:
            self.bus.end()

    def process_request(self, request: socket.socket, client_address: typing.Any) -> None:
        """Answers a request in a thread of its own. If too many are open, the oldest that is not whole yet is cut off."""
        if not self.lanes.acquire(blocking=False):
            self.cut_oldest()
            if not self.lanes.acquire(timeout=PATIENCE):
                self.shutdown_request(request)
                return
        with self.lock:
            self.half_open[request] = None
        super().process_request(request, client_address)

    def cut_oldest(self) -> None:
        with self.lock:
            oldest = next(iter(self.half_open), None)
            if oldest:
                del self.half_open[oldest]
                with contextlib.suppress(OSError):
                    oldest.shutdown(socket.SHUT_RDWR)

    def note_whole(self, request: socket.socket) -> None:
        with self.lock:
            self.half_open.pop(request, None)

    def process_request_thread(self, request: socket.socket, client_address: typing.Any) -> None:
        try:
            super().process_request_thread(request, client_address)
        finally:
            self.note_whole(request)
            self.lanes.release()

    def handle_error(self, request: socket.socket, client_address: typing.Any) -> None:
        """A client that goes away in the midst of its request is no fault."""


class Handler(http.server.BaseHTTPRequestHandler):
    timeout, server_version, sys_version = PATIENCE, "page", ""

    @property
    def bus(self) -> commanding.Bus:
        return self.server.bus

    def log_message(self, *_: typing.Any) -> None:
        """Nothing is said of requests."""

    def do_GET(self) -> None:
        self.server.note_whole(self.connection)
        self.answer(self.shown())

    def do_POST(self) -> None:
        self.answer(self.done())

    def shown(self) -> dict[str, typing.Callable[[], None]]:
        return {"": self.show, "state": self.tell_state, "table.csv": self.tell_csv, "frames": self.show_frames, "more": self.tell_more}

    def done(self) -> dict[str, typing.Callable[[], None]]:
        """What the page that leads may ask for, and that each one may lead."""
        led = {"do": self.do, "stop": self.stop, "name": self.name, "walk": self.walk, "out": self.shut_out}
        return {it: functools.partial(self.do_if_leading, call) for it, call in led.items()} | {"lead": self.lead}

    def do_if_leading(self, call: typing.Callable[[], None]) -> None:
        if self.server.devices and self.server.devices.leader != self.who():
            raise Refused(409, "another device leads", ("Why", "sees"))
        call()

    def who(self) -> int:
        """The number of the device that asks: this computer."""
        return 0

    def answer(self, known: dict[str, typing.Callable[[], None]]) -> None:
        try:
            name, *self.numbers = self.asked().split("/")
            call = known.get(name)
            if not call or len(self.numbers) != (2 if name == "more" else 0) or not all(map(NUMBER.fullmatch, self.numbers)):
                raise Refused(404, "nothing stands here")
            call()
        except Refused as why:
            self.write(why.status, "text/plain", f"{why}\n", *why.more)
        except commanding.Bad as why:
            self.write(400, "text/plain", f"{self.said(str(why))}\n")
        except commanding.Busy as why:
            self.write(409, "text/plain", f"{why}\n", ("Why", "busy"))
        except walking.Moved as why:
            self.write(409, "text/plain", f"{why}\n", ("Why", why.key))
        except OSError as why:
            self.write(500, "text/plain", f"{self.said(str(why))}\n")

    def asked(self) -> str:
        """What is asked for, where somebody asks who may."""
        if len(self.path) > LONGEST:
            raise Refused(414, "the address is too long")
        _, _, rest = self.path.partition("/")
        token, slash, what = rest.partition("/")
        self.refuse_others(hmac.compare_digest(token.encode(), self.server.token.encode()))
        if not slash:
            raise Refused(308, "the page is there", ("Location", f"/{self.server.token}/"))
        return what

    def refuse_others(self, knows: bool) -> None:
        """Refuses whoever asks from another page, or does not know the address."""
        said = {it: self.headers.get_all(it, []) for it in ("Host", "Origin", "Sec-Fetch-Site")}
        is_own = knows and len(said["Host"]) == 1 and said["Host"][0] in self.server.hosts
        is_own = is_own and all(it == f"http://{said['Host'][0]}" for it in said["Origin"])
        if not is_own or not all(it in OWN for it in said["Sec-Fetch-Site"]):
            raise Refused(403, "refused: the page has the address that was printed when it was started")

    def body(self) -> dict[str, typing.Any]:
        lengths = self.headers.get_all("Content-Length", [])
        if len(lengths) != 1 or not re.fullmatch(r"[0-9]{1,6}", lengths[0]) or "Transfer-Encoding" in self.headers:
            raise Refused(411, "one length is wanted")
        if int(lengths[0]) > BODY:
            raise Refused(413, "too much")
        if self.headers.get_content_type() != "application/json":
            raise Refused(415, "JSON is wanted")
        raw = self.rfile.read(int(lengths[0]))
        self.server.note_whole(self.connection)
        if len(raw) != int(lengths[0]):
            raise Refused(400, "the request is cut short")
        try:
            value = json.loads(raw)
        except (ValueError, RecursionError) as why:
            raise Refused(400, "this is no JSON") from why
        if not isinstance(value, dict):
            raise Refused(400, "an object is wanted")
        return value

    def write(self, status: int, kind: str, text: str | bytes, *more: tuple[str, str], policy: str = "") -> None:
        raw = text.encode() if isinstance(text, str) else text
        self.send_response(status)
        fixed = {
            "Content-Type": f"{kind}; charset=utf-8", "Content-Length": str(len(raw)), "Cache-Control": "no-store",
            "Content-Security-Policy": policy or self.server.policy, "Referrer-Policy": "no-referrer", "X-Content-Type-Options": "nosniff",
            "Cross-Origin-Resource-Policy": "same-origin", "Cross-Origin-Opener-Policy": "same-origin",
        }
        for name, value in [*fixed.items(), *more]:
            self.send_header(name, value)
        self.end_headers()
        self.wfile.write(raw)

    # What may be asked for.

    def language(self) -> str:
        return texts.chosen(self.headers.get("Accept-Language", ""))

    def said(self, line: str) -> str:
        """A line in the language of the page, or as it is."""
        return texts.told(line, self.language()) or line

    def show(self) -> None:
        self.bus.read_table()
        self.write(200, "text/html", self.server.pages[self.language()])

    def tell_state(self) -> None:
        """The state, with each line that was said in the language of the page, as far as it has a translation."""
        state, language = self.bus.state(), self.language()
        if state["command"]:
            state["command"]["told"] = [texts.told(it, language) for it in state["command"]["said"]]
            state["command"]["reason"] = [*map(self.said, state["command"].get("reason", []))]
        state["trouble"] = "\n".join(map(self.said, (state["trouble"] or "").splitlines()))
        state["devices"] = self.server.devices and self.server.devices.state(self.who())
        self.write(200, "application/json", json.dumps(state))

    def show_frames(self) -> None:
        """The frames of the command that was begun last, which goes on telling of them."""
        came = self.bus.told(None, 0)
        if not came or not came[1]:
            raise Refused(404, "no command has told of its frames yet")
        page = viewer.fill(came[1], f"more/{came[0]}/")
        self.write(200, "text/html", page, policy=self.server.viewer_policy)

    def tell_more(self) -> None:
        """What was told of a command since a page had so many bytes."""
        came = self.bus.told(*map(int, self.numbers))
        if not came:
            raise Refused(410, "the command has ended, or another one was begun")
        self.write(200, "application/x-ndjson", came[1])

    def tell_csv(self) -> None:
        self.write(200, "text/csv", self.bus.csv(self.language() == command.GERMAN), ("Content-Disposition", 'attachment; filename="luminaires.csv"'))

    def do(self) -> None:
        asked = self.body()
        self.bus.begin(asked.get("command"), asked.get("address"), asked.get("missing", []), asked.get("expected"))
        self.tell_state()

    def walk(self) -> None:
        walking.ask(self.bus, self.body())
        self.tell_state()

    def stop(self) -> None:
        self.body()
        self.bus.stop()
        self.tell_state()

    def lead(self) -> None:
        self.body()
        if not self.server.devices:
            raise Refused(404, "nothing stands here")
        self.server.devices.lead(self.who())
        self.tell_state()

    def shut_out(self) -> None:
        number = self.body().get("number")
        if self.who() or not self.server.devices or not isinstance(number, int):
            raise Refused(404, "nothing stands here")
        self.server.devices.shut_out(number)
        self.tell_state()

    def name(self) -> None:
        asked = self.body()
        random, place = asked.get("random"), asked.get("place")
        if not isinstance(random, str) or not places.RANDOM.fullmatch(random) or not isinstance(place, str):
            raise commanding.Bad("a random address and a place are wanted")
        places.note(self.bus.names, random, place)
        self.tell_state()
