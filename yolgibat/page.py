"""Serves one page for a bus on this computer alone, by which an installer gives addresses and writes down where luminaires hang: its help and
docs/INSTALLER.md say what it does.

The status is 0 if a page is served over these records already, whose address is written; 5 if the folder of the records cannot be written."""

import argparse
import collections.abc
import fcntl
import functools
import json
import os
import pathlib
import threading
import typing

from yolgibat import ROOT, apart, command, commanding, joining, listening, programs, serving, standard

BAD_WORD, NO_RECORDS = 2, 5
PAGE = ROOT / "yolgibat/choose.html"
ASKED = ("records", "driver", "block")


class Server(serving.Server):
    """The server of a page that asks for the file of the records, the driver and the block, until they are chosen: then it is that of the bus."""

    def __init__(self, program: str, port: int, token: str) -> None:
        self.program, self.choice = program, threading.Lock()
        self.choose_pages, self.choose_policy = serving.prepared(PAGE)
        super().__init__(None, port, token, Handler)

    def choose(self, asked: dict[str, typing.Any]) -> None:
        """Takes what is asked for. The page of the bus has the token that the file of its address keeps, if it keeps one."""
        if not all(isinstance(asked.get(it), str) and asked[it].strip() for it in ASKED):
            raise commanding.Bad("a file, a driver and a block are wanted")
        words = ["--records", os.path.expanduser(asked["records"].strip()), "--driver", asked["driver"], asked["block"].strip()]
        try:
            chosen = command.of_page(words)
        except command.BadWord as why:
            raise commanding.Bad(str(why)) from why
        if not programs.can_start("dali_commission", chosen.driver):
            raise commanding.Bad(f"the driver '{chosen.driver[0]}' cannot be started: it is no program that can be run")
        with self.choice:
            if self.bus:
                raise commanding.Bad("a file and a driver were chosen already")
            opened = serving.locked(pathlib.Path(f"{chosen.records[0]}.page"))
            if not opened:
                raise commanding.Bad("a page is served over these records already")
            standard.say(f"the records are in {os.path.abspath(chosen.records[0])}")
            bus = bus_of(chosen, self.program, opened)
            self.token = serving.kept_of(opened).token or self.token
            self.tell(opened, False)
            self.bus = bus


class Handler(serving.Handler):
    def answer(self, known: dict[str, collections.abc.Callable[[], None]]) -> None:
        super().answer(known if self.bus else {"GET": {"": self.show_choice}, "POST": {"choose": self.choose}}[self.command])

    def show_choice(self) -> None:
        self.write(200, "text/html", self.server.choose_pages[self.language()], policy=self.server.choose_policy)

    def choose(self) -> None:
        self.server.choose(self.body())
        self.write(200, "application/json", json.dumps({"token": self.server.token}))


def bus_of(chosen: argparse.Namespace, program: str, opened: typing.TextIO) -> commanding.Bus:
    """The bus of a page, with the command that an earlier page has left."""
    expected = command.expected_of(chosen.expect)
    site = commanding.Site(program, chosen.records, chosen.others, chosen.block, chosen.driver, chosen.seconds, chosen.title, expected)
    bus = commanding.Bus(site, (opened.fileno(),))
    bus.read_table()
    if left := apart.left_of(opened):
        bus.go_on(left)
    else:
        fcntl.flock(opened, fcntl.LOCK_EX)
    return bus


def serve(make: collections.abc.Callable[[int, str], serving.Server], opened: typing.TextIO | None, chosen: argparse.Namespace) -> int:
    host = getattr(chosen, "listen", None)
    try:
        return serving.serve(make, opened, chosen.port, chosen.open, functools.partial(listening.listen, host=host) if host else id)
    except OSError as why:
        standard.say(f"error: the page cannot be served: {why.strerror}")
        return BAD_WORD


def ask(asked: argparse.Namespace) -> int:
    """Serves a page that asks for the file and the driver, and then that of the bus."""
    program, status = programs.commission(None)
    return status or serve(lambda port, token: Server(program, port, token), None, asked)


def main(chosen: argparse.Namespace) -> int:
    if not programs.can_start("dali_commission", chosen.driver):
        return joining.NOT_STARTED
    program, status = programs.commission(chosen.program)
    if status:
        return status
    file = pathlib.Path(f"{chosen.records[0]}.page")
    try:
        opened = serving.locked(file)
    except OSError as why:
        standard.say(f"error: {file}: {why.strerror}")
        return NO_RECORDS
    if not opened:
        return 0
    bus = bus_of(chosen, program, opened)
    return serve(lambda port, token: serving.Server(bus, port, token), opened, chosen)
