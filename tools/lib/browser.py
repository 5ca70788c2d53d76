"""Chromium without a window, told what to do through two pipes (the DevTools protocol), for checks of pages."""

import base64
import json
import os
import select
import subprocess
import time
import typing

# The end of a message. How many seconds it may take until something is so, and how long the browser may say nothing on a busy machine.
END, PATIENCE, SILENCE = b"\0", 60, 900
WORDS = ["--headless", "--no-sandbox", "--disable-gpu", "--hide-scrollbars", "--no-first-run", "--remote-debugging-pipe"]


class Wrong(Exception):
    """What a page or the browser did not do."""


class Browser:
    """The browser, with a profile in a folder."""

    def __init__(self, program: str, profile: str) -> None:
        read, to = os.pipe()
        back, write = os.pipe()
        # The shell gives the two pipes the numbers that the browser wants.
        call = ["sh", "-c", f'exec "$0" "$@" 3<&{read} 4>&{write}', program, *WORDS, f"--user-data-dir={profile}", "about:blank"]
        quiet = {"stdin": subprocess.DEVNULL, "stdout": subprocess.DEVNULL, "stderr": subprocess.DEVNULL}
        self.process = subprocess.Popen(call, pass_fds=(read, write), **quiet)
        os.close(read)
        os.close(write)
        self.to, self.back, self.heard, self.number = to, back, b"", 0
        # What each page said that it should not: exceptions, and lines of its console.
        self.said: list[str] = []
        # What pages asked for, if `Network` is enabled.
        self.asked: list[str] = []

    def __enter__(self) -> typing.Self:
        return self

    def __exit__(self, *_: object) -> None:
        self.process.terminate()
        self.process.wait()
        os.close(self.to)
        os.close(self.back)

    def ask(self, method: str, session: str | None = None, **words: typing.Any) -> dict[str, typing.Any]:
        """Asks the browser for something, and waits for its answer."""
        self.number += 1
        message = {"id": self.number, "method": method, "params": words} | ({"sessionId": session} if session else {})
        os.write(self.to, json.dumps(message).encode() + END)
        while (found := self.message()).get("id") != self.number:
            self.note(found)
        if "error" in found:
            raise Wrong(f"{method}: {found['error']}")
        return found["result"]

    def message(self) -> dict[str, typing.Any]:
        while END not in self.heard:
            if not select.select([self.back], [], [], SILENCE)[0]:
                raise Wrong(f"the browser says nothing for {SILENCE} seconds")
            more = os.read(self.back, 1 << 20)
            if not more:
                raise Wrong("the browser has ended")
            self.heard += more
        text, _, self.heard = self.heard.partition(END)
        return json.loads(text)

    def note(self, event: dict[str, typing.Any]) -> None:
        """Keeps what a page says in its console, or what went wrong in it."""
        if event.get("method") == "Runtime.exceptionThrown":
            self.said.append(json.dumps(event["params"]["exceptionDetails"])[:300])
        if event.get("method") == "Log.entryAdded" and event["params"]["entry"]["level"] == "error":
            self.said.append(event["params"]["entry"]["text"])
        if event.get("method") == "Network.requestWillBeSent":
            self.asked.append(event["params"]["request"]["url"])

    def page(self, address: str, width: int = 1400, height: int = 1000, is_dark: bool = False) -> "Tab":
        target = self.ask("Target.createTarget", url="about:blank")["targetId"]
        tab = Tab(self, target, self.ask("Target.attachToTarget", targetId=target, flatten=True)["sessionId"])
        for domain in ("Page", "Runtime", "Log"):
            tab.ask(f"{domain}.enable")
        tab.look(width, height, is_dark)
        tab.ask("Page.navigate", url=address)
        return tab


class Tab:
    """One page."""

    def __init__(self, browser: Browser, target: str, session: str) -> None:
        self.browser, self.target, self.session = browser, target, session

    def ask(self, method: str, **words: typing.Any) -> dict[str, typing.Any]:
        return self.browser.ask(method, self.session, **words)

    def look(self, width: int, height: int, is_dark: bool) -> None:
        """The size of the window, that of a phone where it is narrow, and whether the system is dark."""
        is_phone = width < 700
        self.ask("Emulation.setDeviceMetricsOverride", width=width, height=height, deviceScaleFactor=1, mobile=is_phone)
        self.ask("Emulation.setTouchEmulationEnabled", enabled=is_phone)
        features = [{"name": "prefers-color-scheme", "value": "dark" if is_dark else "light"}]
        self.ask("Emulation.setEmulatedMedia", media="", features=features)

    def value(self, text: str) -> typing.Any:
        """What an expression is on the page."""
        found = self.ask("Runtime.evaluate", expression=text, awaitPromise=True, returnByValue=True)
        if "exceptionDetails" in found:
            raise Wrong(f"{text}: {json.dumps(found['exceptionDetails'])[:300]}")
        return found["result"].get("value")

    def wait(self, text: str, seconds: float = PATIENCE) -> typing.Any:
        """Waits until an expression is true on the page."""
        until = time.monotonic() + seconds
        while not (found := self.value(f"(() => {{ try {{ return {text}; }} catch {{ return false; }} }})()")):
            if time.monotonic() > until:
                raise Wrong(f"it never was so: {text}; the page says {self.value('document.body.innerText')[:600]!r}")
            time.sleep(0.05)
        return found

    def click(self, selector: str) -> None:
        """Clicks an element by the mouse, or touches it on a phone, as soon as that is possible."""
        self.wait(f"(it => it && !it.disabled && it.offsetParent !== null)(document.querySelector({json.dumps(selector)}))")
        place = self.value(
            f"(it => {{ it.scrollIntoView({{block: 'center'}}); const box = it.getBoundingClientRect();"
            f" return [box.x + box.width / 2, box.y + box.height / 2, innerWidth < 700]; }})(document.querySelector({json.dumps(selector)}))"
        )
        x, y, is_phone = place
        if is_phone:
            self.ask("Input.dispatchTouchEvent", type="touchStart", touchPoints=[{"x": x, "y": y}])
            self.ask("Input.dispatchTouchEvent", type="touchEnd", touchPoints=[])
            return
        for kind in ("mousePressed", "mouseReleased"):
            self.ask("Input.dispatchMouseEvent", type=kind, x=x, y=y, button="left", clickCount=1)

    def key(self, key: str, code: int, text: str = "") -> None:
        for kind in ("keyDown", "keyUp"):
            self.ask("Input.dispatchKeyEvent", type=kind, key=key, code=key, windowsVirtualKeyCode=code, text=text if kind == "keyDown" else "")

    def type(self, text: str) -> None:
        self.ask("Input.insertText", text=text)

    def shot(self, path: str) -> None:
        """A picture of the window."""
        raw = self.ask("Page.captureScreenshot", format="png")["data"]
        with open(path, "wb") as file:
            file.write(base64.b64decode(raw))

    def printed(self) -> bytes:
        """The page on paper."""
        return base64.b64decode(self.ask("Page.printToPDF")["data"])

    def close(self) -> None:
        self.browser.ask("Target.closeTarget", targetId=self.target)
