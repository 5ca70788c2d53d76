"""Checks of the page on a network: who is let in, who leads, and who is shut out."""

import json
import pathlib
import typing

from lib import asking
from lib.page_stubs import Page, Room
from yolgibat import listening

# An address of this computer that is not that of the page itself.
HOST = "127.0.0.2"


class Device(asking.Page):
    """A device that asks the same page over the network."""

    def __init__(self, page: Page) -> None:
        self.process, self.host, self.token = page.process, f"{HOST}:{page.host.split(':')[1]}", ""

    def joins(self, code: str, name: str = "phone") -> int:
        status, text = self.asked("POST", "/join", {"code": code, "name": name})
        self.token = json.loads(text)["token"] if status == 200 else self.token
        return status


def check_listen(checks: typing.Any, folder: pathlib.Path) -> None:
    """A device is let in by a code, once for each; five wrong ones make another."""
    room = Room(folder, records={"5": "10000A"})
    with Page(room, "--listen", HOST) as page:
        device, other = Device(page), Device(page)
        checks.same(page.state()["devices"]["address"], f"http://{device.host}/", "the page says where a device goes")
        checks.same(device.asked("GET", "/")[0], 200, "a device is asked for the code")
        checks.say("not encrypted" in device.asked("GET", "/")[1], "it is said that the network is not encrypted")
        for path in (f"/{page.token}/", f"/{page.token}/state", "/x/", "/x/state", "/state"):
            checks.same(device.asked("GET", path)[0], 303, f"a device that was not let in goes to the code: {path}")
        checks.same(device.asked("GET", "/", headers={"Host": page.host})[0], 403, "a foreign Host")
        checks.same(device.asked("POST", "/join", {"code": "0", "name": "x"}, {"Origin": "http://example.org"})[0], 403, "another origin")
        code = page.state()["devices"]["code"]
        for asked in ({}, {"code": code}, {"code": code, "name": ""}, {"code": code, "name": "x" * 41}, {"code": code, "name": "\n"}, {"code": 5, "name": "x"}):
            checks.same(device.asked("POST", "/join", asked)[0], 400, f"no code and name: {asked}")
        wrong = f"{(int(code) + 1) % 10**6:06}"
        checks.same([device.joins(wrong) for _ in range(listening.TRIES - 1)], [403] * (listening.TRIES - 1), "a wrong code is refused")
        checks.same(page.state()["devices"]["code"], code, "four wrong codes leave it")
        checks.same((device.joins(wrong), device.joins(code)), (403, 403), "after five it is another")
        code = page.state()["devices"]["code"]
        checks.same((device.joins(code), other.joins(code, "tablet")), (200, 403), "a code lets one device in")
        checks.same(other.joins(page.state()["devices"]["code"], "tablet"), 200, "the next one lets the next in")
        check_leader(checks, page, device, other)


def check_leader(checks: typing.Any, page: Page, device: Device, other: Device) -> None:
    """One page leads, and the others see; a device that is shut out sees nothing."""
    checks.same(device.got("")[0], 200, "a device has the page")
    seen = device.state()["devices"]
    checks.say("code" not in seen and not seen["leads"] and page.state()["devices"]["leads"], "the computer leads at first, and alone has the code")
    checks.same([it["name"] for it in seen["devices"]], ["phone", "tablet"], "each device is named")
    for what, body in (("do", {"command": "check"}), ("stop", {}), ("name", {"random": "10000A", "place": "x"}), ("walk", {"do": "begin"}), ("out", {"number": 1})):
        checks.same(device.posted(what, body)[0], 409, f"a device that does not lead only sees: {what}")
    checks.same(device.posted("lead", {})[0], 200, "a device takes the lead")
    checks.same((page.posted("do", {"command": "check"})[0], other.posted("stop", {})[0]), (409, 409), "all others only see then")
    checks.same(device.posted("name", {"random": "10000A", "place": "Hall"})[0], 200, "it may do what the page may")
    checks.same(page.state()["places"][0]["place"], "Hall", "and the others see it")
    checks.same(device.posted("out", {"number": 2})[0], 404, "it shuts no other one out")
    page.posted("lead", {})
    checks.same(page.posted("out", {"number": 1})[0], 200, "the computer shuts a device out")
    checks.same((device.got("state")[0], other.got("state")[0]), (303, 200), "that device alone sees nothing more")
    other.posted("lead", {})
    page.posted("lead", {})
    checks.same(page.posted("out", {"number": "2"})[0], 404, "a device is shut out by its number")
