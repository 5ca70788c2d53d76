"""Simulated control gear on a bus. They behave as docs/RULES.md says; a file keeps what gear keep over a loss of power.

docs/ADAPTERS.md has the commands that they know beside, from memory of IEC 62386-102:2014.
"""

import argparse
import collections.abc
import fcntl
import io
import json
import math
import os
import pathlib
import random
import re
import time
import typing

import lines

MASK, MASK24, YES = 0xFF, 0xFFFFFF, 0xFF
MOST_GEAR = 128
FULL = 254
DISABLED, ENABLED, WITHDRAWN = "disabled", "enabled", "withdrawn"
INITIALISE, RANDOMISE, COMPARE, VERIFY, QUERY_SHORT = 0xA5, 0xA7, 0xA9, 0xB9, 0xBB
# QUERY RANDOM ADDRESS (H), (M) and (L), with the place of the byte that they ask for.
RANDOM_BYTES = {0xC2: 16, 0xC3: 8, 0xC4: 0}
# The address bytes of commands to all gear, and to those without short address.
ALL, UNADDRESSED = 0xFF, 0xFD
RESET, SET_SHORT, QUERY_PRESENT, READ_MEMORY = 0x20, 0x80, 0x91, 0xC5
# Memory bank 0: its last location, and where the GTIN and the identification number stand, each with its first byte first. Location 1 is none.
LAST_LOCATION, GTIN, IDENTIFICATION = 0x1A, range(0x03, 0x09), range(0x0B, 0x13)
# The GTIN of all gear that a new file has: one of GS1's for internal use.
OWN_GTIN = 2_000_000_000_008
# In seconds: how long gear that play times remember the first frame of a pair, and their initialisation.
PAIR, INITIALISED = 0.100, 900
# What gives the next random address of a gear that has this one.
Draw = collections.abc.Callable[[int], int]


def short_of(byte: int) -> int | None:
    """The short address that a byte `0AAAAAA1` writes, or None."""
    return byte >> 1 if byte & 0x81 == 1 else None


def is_send_twice(frame: bytes) -> bool:
    address_byte, data = frame
    if address_byte == INITIALISE:
        return data in (0, MASK) or short_of(data) is not None
    if address_byte in (ALL, UNADDRESSED) or short_of(address_byte) is not None:
        return data in (RESET, SET_SHORT)
    return address_byte == RANDOMISE and data == 0


def is_question(frame: bytes) -> bool:
    """Whether a backward frame is awaited after a frame."""
    address_byte, data = frame
    if address_byte in (COMPARE, QUERY_SHORT):
        return data == 0
    if address_byte == VERIFY:
        return short_of(data) is not None
    if data == QUERY_PRESENT and address_byte in (ALL, UNADDRESSED):
        return True
    return short_of(address_byte) is not None and data in (QUERY_PRESENT, READ_MEMORY, *RANDOM_BYTES)


class Gear:
    """One control gear. What it forgets at a loss of power begins anew with it."""

    def __init__(self, short: int | None, random_address: int, level: int, serial: tuple[int, int] | None = None) -> None:
        self.short, self.random, self.level = short, random_address, level
        # What memory bank 0 has of it, its GTIN and its identification number; None if it has no such bank.
        self.serial = serial
        self.state, self.search, self.half, self.dtr0, self.dtr1 = DISABLED, MASK24, None, 0, 0

    def kept(self) -> tuple[int | None, int, int]:
        return self.short, self.random, self.level

    def short_byte(self) -> int:
        return MASK if self.short is None else 2 * self.short + 1

    def is_active(self) -> bool:
        return self.state != DISABLED

    def is_found(self) -> bool:
        return self.is_active() and self.random == self.search

    def take(self, frame: bytes, draw: Draw) -> int | None:
        """Takes a frame, and returns the byte that it answers, or None. `draw` gives its next random address.

        Any frame that is taken makes an end of a half pair, and a send-twice command is executed at its second frame.
        """
        first, self.half = self.half, None
        if is_send_twice(frame) and first != frame:
            self.half = frame
            return None
        address_byte, data = frame
        if address_byte % 2 == 0:
            return self.take_level(address_byte, data)
        if address_byte in COMMANDS:
            return COMMANDS[address_byte](self, data, draw)
        is_own = self.short is not None and short_of(address_byte) == self.short
        if is_own or address_byte == ALL or address_byte == UNADDRESSED and self.short is None:
            if data == QUERY_PRESENT:
                return YES
            self.obey(data)
        if is_own and data == READ_MEMORY:
            return self.read_memory()
        return self.random >> RANDOM_BYTES[data] & 0xFF if is_own and data in RANDOM_BYTES else None

    def read_memory(self) -> int | None:
        """The byte at DTR0 of memory bank DTR1, if there is one. Then DTR0 goes on to the next one."""
        if self.serial is None or self.dtr1 != 0:
            return None
        at, self.dtr0 = self.dtr0, min(self.dtr0 + 1, 0xFF)
        for number, places in zip(self.serial, (GTIN, IDENTIFICATION)):
            if at in places:
                return number.to_bytes(len(places))[at - places[0]]
        return None if at == 1 or at > LAST_LOCATION else LAST_LOCATION if at == 0 else 0

    def obey(self, opcode: int) -> None:
        """Does what a command that is addressed to this gear asks for. RESET leaves the short address, and the initialisation."""
        if opcode == RESET:
            self.random, self.search, self.level = MASK24, MASK24, FULL
        if opcode == SET_SHORT and (self.dtr0 == MASK or short_of(self.dtr0) is not None):
            self.short = short_of(self.dtr0)

    def take_level(self, address_byte: int, level: int) -> None:
        """Direct arc power, to one short address, to all (`FE`) or to those without short address (`FC`)."""
        is_meant = address_byte == 0xFE or address_byte == (0xFC if self.short is None else 2 * self.short)
        if is_meant and level != MASK:
            self.level = level

    def terminate(self, data: int, _draw: Draw) -> None:
        if data == 0:
            self.state = DISABLED

    def initialise(self, data: int, _draw: Draw) -> None:
        if data in (0, self.short_byte()):
            self.state = ENABLED

    def randomise(self, data: int, draw: Draw) -> None:
        if data == 0 and self.is_active():
            self.random = draw(self.random)

    def compare(self, data: int, _draw: Draw) -> int | None:
        return YES if data == 0 and self.state == ENABLED and self.random <= self.search else None

    def withdraw(self, data: int, _draw: Draw) -> None:
        if data == 0 and self.state == ENABLED and self.is_found():
            self.state = WITHDRAWN

    def take_search(self, place: int, data: int) -> None:
        if self.is_active():
            self.search = self.search & ~(0xFF << place) | data << place

    def program(self, data: int, _draw: Draw) -> None:
        if self.is_found() and (data == MASK or short_of(data) is not None):
            self.short = short_of(data)

    def verify(self, data: int, _draw: Draw) -> int | None:
        return YES if self.is_active() and short_of(data) is not None and short_of(data) == self.short else None

    def query_short(self, data: int, _draw: Draw) -> int | None:
        return self.short_byte() if data == 0 and self.is_found() else None


COMMANDS: dict[int, collections.abc.Callable[[Gear, int, Draw], int | None]] = {
    0xA1: Gear.terminate,
    0xA3: lambda it, data, _: setattr(it, "dtr0", data),
    INITIALISE: Gear.initialise,
    RANDOMISE: Gear.randomise,
    COMPARE: Gear.compare,
    0xAB: Gear.withdraw,
    **{byte: lambda it, data, _, place=place: it.take_search(place, data) for byte, place in ((0xB1, 16), (0xB3, 8), (0xB5, 0))},
    0xB7: Gear.program,
    VERIFY: Gear.verify,
    0xC3: lambda it, data, _: setattr(it, "dtr1", data),
    QUERY_SHORT: Gear.query_short,
}


def check(holds: object, what: str) -> None:
    if not holds:
        raise lines.Fault(what)


def number_of(text: typing.Any, what: str, digits: int = 6) -> int:
    named = {6: "six", 16: "sixteen"}[digits]
    is_so = isinstance(text, str) and re.fullmatch(f"[0-9A-Fa-f]{{{digits}}}", text)
    check(is_so, f"{what} is not {named} hexadecimal digits in quotes")
    return int(text, 16)


def is_whole(value: object, most: int) -> bool:
    """Whether a value of a file is a whole number from 0 to the most; true and false are none."""
    return type(value) is int and 0 <= value <= most


def has_keys(value: object, *keys: str) -> bool:
    return isinstance(value, dict) and set(value) == set(keys)


def gear_of(value: typing.Any, what: str) -> Gear:
    """A gear as its file has it; the keys of its serial number may both be left out."""
    keys, more = ("short_address", "random_address", "level"), ("gtin", "identification")
    check(has_keys(value, *keys) or has_keys(value, *keys, *more), f"{what} is not {{{', '.join(keys)}}}, with {' and '.join(more)} or without")
    short, level = value["short_address"], value["level"]
    check(short is None or is_whole(short, 63), f"{what}: short_address is neither null nor a number from 0 to 63")
    check(is_whole(level, FULL), f"{what}: level is not a number from 0 to {FULL}")
    serial = None
    if "gtin" in value:
        check(is_whole(value["gtin"], 0xFFFFFFFFFFFF), f"{what}: gtin is not a number from 0 to {0xFFFFFFFFFFFF}")
        serial = value["gtin"], number_of(value["identification"], f"{what}: identification", 16)
    return Gear(short, number_of(value["random_address"], f"{what}: random_address"), level, serial)


def row_of(gear: Gear) -> dict[str, typing.Any]:
    """A gear as its file is to have it."""
    row = {"short_address": gear.short, "random_address": f"{gear.random:06X}", "level": gear.level}
    return row | ({"gtin": gear.serial[0], "identification": f"{gear.serial[1]:016X}"} if gear.serial else {})


def read_site(text: str, what: str, may_be_alike: bool = False) -> tuple[list[Gear], int]:
    """The gear that the text of a file has, and the number that was drawn last. No two may have one random address, if nothing is said."""
    try:
        value = json.loads(text)
    except (ValueError, RecursionError) as why:
        raise lines.Fault(f"{what} is not JSON: {why}") from why
    check(has_keys(value, "last_drawn", "gear"), f"{what}: it is not {{last_drawn, gear}}")
    last_drawn = number_of(value["last_drawn"], f"{what}: last_drawn")
    check(isinstance(value["gear"], list), f"{what}: gear is not a list")
    check(len(value["gear"]) <= MOST_GEAR, f"{what}: more than {MOST_GEAR} gear")
    gear = [gear_of(it, f"{what}: gear {at}") for at, it in enumerate(value["gear"])]
    holders = {}
    for at, it in enumerate(gear):
        other = holders.setdefault(it.random, at)
        is_one = other != at and it.random != MASK24 and not may_be_alike
        check(not is_one, f"{what}: gear {other} and gear {at} have one random_address, {it.random:06X}")
    return gear, last_drawn


def site_text(gear: list[Gear], last_drawn: int) -> str:
    """The text of a file, a line for each gear."""
    them = ",\n".join(f"  {json.dumps(row_of(it))}" for it in gear)
    return f'{{\n "last_drawn": "{last_drawn:06X}",\n "gear": [\n{them}\n ]\n}}\n'


class SiteFile:
    """The file of a site. It is locked as long as a simulated bus has it, since that writes what it has in memory."""

    def __init__(self, path: str | pathlib.Path) -> None:
        self.path, self.file = pathlib.Path(path), None

    def lock(self, file: io.TextIOWrapper, path: pathlib.Path) -> None:
        """Locks an open file, which is still to be the one at this path then."""
        try:
            fcntl.flock(file, fcntl.LOCK_EX | fcntl.LOCK_NB)
            is_there = os.path.samestat(os.fstat(file.fileno()), os.stat(path))
        except (BlockingIOError, FileNotFoundError):
            is_there = False
        self.check_free(is_there)

    def check_free(self, is_free: object) -> None:
        check(is_free, f"{self.path} is in use by another simulated bus")

    def read(self) -> str | None:
        """The text of the file, or None where it is missing."""
        try:
            self.file = open(self.path, encoding="utf-8")
        except FileNotFoundError:
            return None
        self.lock(self.file, self.path)
        try:
            return self.file.read()
        except ValueError as why:
            raise lines.Fault(f"{self.path} is not JSON: {why}") from why

    def write(self, text: str) -> None:
        """Writes a file beside it, locked before, and renames that, so that the file is whole at any moment."""
        new = self.path.with_name(f"{self.path.name}.new")
        file = open(new, "a", encoding="utf-8")
        self.lock(file, new)
        # Somebody else made the file since it was found missing.
        self.check_free(self.file or not self.path.exists())
        file.truncate(0)
        file.write(text)
        file.flush()
        os.replace(new, self.path)
        if self.file:
            self.file.close()
        self.file = file


class Bus:
    """A bus with gear, and what goes wrong on it by chance."""

    def __init__(self, chosen: argparse.Namespace) -> None:
        self.chosen, self.chance, self.file = chosen, random.Random(chosen.seed), SiteFile(chosen.file)
        # When the last frame was begun, and the last INITIALISE.
        self.begun = self.initialised = -math.inf
        text = self.file.read()
        if text is None:
            # Numbers of their own, so that what else happens by chance is as it is without them.
            serials = random.Random(None if chosen.seed is None else f"serials {chosen.seed}")
            self.gear = [Gear(None, MASK24, FULL, (OWN_GTIN, serials.randrange(1 << 64))) for _ in range(chosen.gear)]
            self.last_drawn = self.chance.randrange(MASK24)
            self.kept = None
        else:
            self.gear, self.last_drawn = read_site(text, chosen.file, chosen.alike)
            self.kept = self.keeps()
        self.mute = [it for number, it in enumerate(self.gear) if number in chosen.mute]
        # What gear have drawn at the frame that is sent, by the random address that they had.
        self.drawn: dict[int, int] = {}
        self.keep()

    def keeps(self) -> list[tuple[int | None, int, int]]:
        return [it.kept() for it in self.gear]

    def keep(self) -> None:
        """Writes the file, where gear keep anything else than it has."""
        if self.keeps() != self.kept:
            self.kept = self.keeps()
            self.file.write(site_text(self.gear, self.last_drawn))

    def draw(self, before: int) -> int:
        """The next random address. A congruential generator of full period gives each number of 24 bits once. Gear that have one random
        address draw the same one, if that is asked for."""
        if self.chosen.same_draws and before in self.drawn:
            return self.drawn[before]
        taken = {MASK24, *(it.random for it in self.gear)}
        self.last_drawn = self.next_drawn()
        while self.last_drawn in taken:
            self.last_drawn = self.next_drawn()
        if before != MASK24:
            self.drawn[before] = self.last_drawn
        return self.last_drawn

    def next_drawn(self) -> int:
        return (self.last_drawn * 1140671485 + 12820163) & MASK24

    def happens(self, chance: float) -> bool:
        return self.chance.random() < chance

    def put(self, frame: bytes, awaits: bool) -> str:
        """What a driver tells of a frame, after which it awaits a backward frame or none.

        Where it lapsed, it was not sent, so no gear takes it and half pairs stay. A gear that takes a destroyed frame takes it
        like any other.
        """
        if self.chosen.timed:
            self.pass_time(frame)
        if self.chosen.slow:
            time.sleep(self.chosen.slow)
        if self.chosen.foreign > 0 and self.happens(self.chosen.foreign):
            self.take_foreign()
        if self.happens(self.chosen.lapse):
            return lines.LAPSED
        self.drawn.clear()
        is_destroyed = self.happens(self.chosen.destroy)
        takers = [it for it in self.gear if not is_destroyed or self.happens(0.5)]
        answers = [byte for it in takers if (byte := self.answer(it, frame)) is not None]
        self.keep()
        if is_destroyed:
            return lines.DAMAGED if awaits and self.chosen.one_code else lines.DESTROYED
        return self.heard(answers) if awaits else lines.SILENCE

    def pass_time(self, frame: bytes) -> None:
        """Gear forget what they remember for some time only."""
        now = time.monotonic()
        for it in self.gear:
            it.half = it.half if now - self.begun <= PAIR else None
            it.state = it.state if now - self.initialised <= INITIALISED else DISABLED
        self.begun, self.initialised = now, now if frame[0] == INITIALISE else self.initialised

    def take_foreign(self) -> None:
        """Another device sends direct arc power, as a sensor does, and all gear take it."""
        frame = bytes((2 * self.chance.randrange(128), self.chance.randrange(256)))
        for it in self.gear:
            it.take(frame, self.draw)
        self.keep()

    def answer(self, gear: Gear, frame: bytes) -> int | None:
        """Lets a gear take a frame. The byte that it answers, or None."""
        byte = gear.take(frame, self.draw)
        return None if self.is_mute(gear, frame) else byte

    def is_mute(self, gear: Gear, frame: bytes) -> bool:
        """Whether this gear tells no short address under its random address."""
        return frame[0] == QUERY_SHORT and gear in self.mute

    def heard(self, answers: list[int]) -> str:
        """What is heard of the backward frames. Several equal ones are one byte or damaged, others together are damaged."""
        told = lines.SILENCE
        if answers and not self.happens(self.chosen.lose):
            is_clear = len(answers) == 1 or len(set(answers)) == 1 and self.happens(0.5)
            told = lines.byte(answers[0]) if is_clear else lines.DAMAGED
        return lines.DAMAGED if self.happens(self.chosen.damage) else told


def measure(most: float) -> collections.abc.Callable[[str], float]:
    """Reads a word that is a number from 0 to the most, with a point or not."""

    def read(word):
        try:
            value = float(word)
        except ValueError:
            value = math.nan
        if not 0 <= value <= most:
            raise argparse.ArgumentTypeError(f"'{word}' is no number from 0 to {most}")
        return value

    return read


def add_words(options: argparse.ArgumentParser) -> None:
    """The words of a simulated bus on a command line."""
    chance = {"type": measure(1), "default": 0, "metavar": "P"}
    count = lines.whole(0, MOST_GEAR)
    options.add_argument("file", metavar="FILE", help="the gear and what they keep, as JSON; made where it is missing")
    options.add_argument("--gear", type=count, default=5, metavar="N", help="how many gear a new FILE has (5)")
    options.add_argument("--seed", type=int, metavar="S", help="where chances and a new FILE's random addresses come from")
    options.add_argument("--lose", **chance, help="the chance of each frame that what gear answer is lost, from 0 to 1")
    options.add_argument("--damage", **chance, help="that something damaged is heard where an answer is awaited")
    options.add_argument("--destroy", **chance, help="that it is destroyed; each gear takes it all the same, or not at all")
    options.add_argument("--one-code", action="store_true", help="tell `damaged` of a question that was destroyed")
    options.add_argument("--lapse", **chance, help="that it is not sent")
    options.add_argument("--foreign", **chance, help="that another device sends direct arc power before it")
    mute = "gear N, counted from 0, never answers QUERY SHORT ADDRESS; may be given again"
    options.add_argument("--mute", type=count, action="append", default=[], metavar="N", help=mute)
    options.add_argument("--alike", action="store_true", help="let gear of FILE have one random address, as after equal draws")
    options.add_argument("--same-draws", action="store_true", help="let gear that have one random address draw the same one anew")
    options.add_argument("--timed", action="store_true", help="let gear forget half a pair after 100 ms, and an initialisation after 15 minutes")
    options.add_argument("--slow", type=measure(60), default=0, metavar="SECONDS", help="how long each frame takes")
