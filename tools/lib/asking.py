"""Asks a page that is served, for checks: what its server answers, and what its state is."""

import collections.abc
import contextlib
import http.client
import json
import subprocess
import time
import typing

# For how many seconds anything is waited for.
WAIT = 30


class Page:
    """A page whose server is this process, which writes its address first."""

    def __init__(self, process: subprocess.Popen[str]) -> None:
        self.process = process
        self.address = process.stdout.readline().strip()
        _, _, self.host, self.token, _ = self.address.split("/")

    def __enter__(self) -> typing.Self:
        return self

    def __exit__(self, *_: object) -> None:
        self.process.terminate()
        self.process.wait(WAIT)

    def asked(self, method: str, path: str, body: object = None, headers: dict[str, str] | None = None) -> tuple[int, str]:
        """What is answered: its status and its text."""
        connection = http.client.HTTPConnection(self.host, timeout=WAIT)
        with contextlib.closing(connection):
            kind = {"Content-Type": "application/json", "Origin": f"http://{self.host}"} if body is not None else {}
            text = body if isinstance(body, (str, bytes, type(None))) else json.dumps(body)
            connection.request(method, path, text, {**kind, **(headers or {})})
            found = connection.getresponse()
            return found.status, found.read().decode(errors="replace")

    def got(self, what: str, **headers: str) -> tuple[int, str]:
        return self.asked("GET", f"/{self.token}/{what}", headers={it.replace("_", "-"): word for it, word in headers.items()})

    def posted(self, what: str, body: object, **headers: str) -> tuple[int, str]:
        return self.asked("POST", f"/{self.token}/{what}", body, {it.replace("_", "-"): word for it, word in headers.items()})

    def state(self, below: str = "") -> dict[str, typing.Any]:
        return json.loads(self.got(f"{below}state")[1])

    def wait(self, is_so: collections.abc.Callable[[dict[str, typing.Any]], object], below: str = "") -> dict[str, typing.Any]:
        """The state, as soon as that is so, or after a while."""
        until = time.monotonic() + WAIT
        while not is_so(state := self.state(below)) and time.monotonic() < until:
            time.sleep(0.05)
        return state

    def done(self, **asked: object) -> dict[str, typing.Any]:
        """The state when a command has ended."""
        self.posted("do", asked)
        return self.wait(lambda it: not it["busy"])
