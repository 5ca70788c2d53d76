"""What is known of a command while it goes on, by its frames and by what it says: in which phase it is, who was heard, who was given an address,
and how long it still takes."""

import json
import re
import threading
import time
import typing

from yolgibat import standard, telling, texts

# A question for a part of the random address of the gear with a short address, and its giving.
QUESTION = re.compile(r"QUERY RANDOM ADDRESS \(([HML])\) ([0-9]+)")
GIVEN = re.compile(r"PROGRAM SHORT ADDRESS ([0-9]+)")
BYTE = re.compile(r"[0-9A-F]{2}")
# The parts of an address, and a random address that tells nothing.
PARTS, BLANK = "HML", "FFFFFF"
# How many passes in a row are to find nothing, how many frames one of them takes, and how many each gear more that is found.
IDLE, PASS, EACH = 3, 209, 67
# After how many seconds it is shown again how far a command is.
PAINTS = 0.2


class Follower:
    """Takes the events of a command one by one, and the lines that it says.

    found    how many gear were enrolled, and `left` how many short addresses no reservation has, as it was said last
    since    the pass in which the last of them was
    phase    `asking`, `searching` or `giving`, and `at` which short address that is about, as far as it is about one
    passes   how often all short addresses were asked from the first one on
    heard    the random address that the gear with a short address told last, whole and clean
    unclear  the short addresses at which an answer was damaged when they were asked last
    given    the random address of a gear that was given a short address, and told it then
    lit      the short addresses whose light was set
    parts    what each short address that was asked told, by the letter of the part
    """

    def __init__(self) -> None:
        self.bytes, self.frames, self.phase, self.at, self.passes, self.is_ended = 0, 0, None, None, 0, False
        self.heard: dict[int, str] = {}
        self.given: dict[int, str] = {}
        self.unclear: set[int] = set()
        self.lit: set[int] = set()
        self.parts: dict[int, dict[str, str | None]] = {}
        self.found, self.left, self.since, self.begun, self.stands = None, None, 0, 0, []
        # The search address, who was programmed last, the first short address that was asked, and whether the last frame asked one.
        self.search, self.programmed, self.first, self.asks = ["FF"] * 3, None, None, False

    def take(self, lines: bytes) -> None:
        self.bytes += len(lines)
        for line in lines.splitlines():
            self.take_event(json.loads(line))

    def take_event(self, event: dict[str, typing.Any]) -> None:
        self.is_ended, self.stands = self.is_ended or "end" in event, event.get("stands", self.stands)
        if event.get("kind") in ("sent", "destroyed"):
            self.frames += 1
            self.take_frame(event["command"], event["frame"], event.get("heard"))

    def hear(self, line: str) -> bool:
        """Takes a line that the program says. Whether it says only how far it is."""
        it = texts.heard(line)
        if is_far := it is not None and it.name == "Said::Far":
            self.found, self.left, self.since = int(it.parts["found"]), int(it.parts["left"]), self.passes
        return is_far

    def take_frame(self, command: str, frame: str, heard: str | None) -> None:
        """A frame was sent, and this was heard; None if it was destroyed."""
        question, given = QUESTION.fullmatch(command), GIVEN.fullmatch(command)
        if question:
            self.take_question(question[1], int(question[2]), heard)
        elif given:
            self.phase, self.at, self.programmed = "giving", int(given[1]), (int(given[1]), "".join(self.search))
        elif command == "QUERY SHORT ADDRESS":
            self.take_told(heard)
        elif command == "DAPC" and heard is not None:
            self.lit.add(int(frame[:2], 16) >> 1)
        elif command in ("COMPARE", "WITHDRAW", "RANDOMISE") or command.split()[0] in telling.SEARCH.values():
            self.take_search(command)
        self.asks = bool(question)

    def take_question(self, part: str, address: int, heard: str | None) -> None:
        if part == "H":
            if not self.asks and (self.first is None or address <= self.first):
                self.passes, self.begun = self.passes + 1, self.frames
            self.first = address if self.first is None else self.first
            self.parts[address] = {}
        self.phase, self.at = "asking", address
        told = self.parts.setdefault(address, {})
        told[part] = heard
        if part == "H" or heard == "damaged":
            self.heard.pop(address, None)
            (self.unclear.add if heard == "damaged" else self.unclear.discard)(address)
        if all(BYTE.fullmatch(told.get(it) or "") for it in PARTS):
            random = "".join(told[it] for it in PARTS)
            self.unclear.discard(address)
            if random != BLANK:
                self.heard[address] = random

    def take_search(self, command: str) -> None:
        self.phase, self.at = "searching", None
        name, _, byte = command.partition(" ")
        if name in telling.SEARCH.values():
            self.search[PARTS.index(name[-1])] = byte

    def take_told(self, heard: str | None) -> None:
        """The gear at the search address was asked for its short address."""
        if self.programmed and heard == f"{2 * self.programmed[0] + 1:02X}" and self.programmed[1] == "".join(self.search):
            self.given[self.programmed[0]] = self.programmed[1]

    def asked(self) -> set[int]:
        """The short addresses that were asked last to the end, or up to an answer that is no byte."""
        return {at for at, told in self.parts.items() if len(told) == len(PARTS) or not all(BYTE.fullmatch(it or "") for it in told.values())}

    def silent(self) -> set[int]:
        """The short addresses at which nothing was heard when they were asked last."""
        return {at for at, told in self.parts.items() if set(told.values()) == {"silence"}}

    def state(self) -> dict[str, typing.Any]:
        state = {"frames": self.frames, "phase": self.phase, "at": self.at, "pass": self.passes}
        return state | {"found": self.found, "left": self.left, "since": self.since}

    def seconds_left(self, task: str, seconds: float, more: int | None = None) -> float | None:
        """How long a run or a check still takes, after so many seconds, if nothing is disturbed and so many gear more are found; of a run at
        least if that is not known. None if nothing can be said yet."""
        if task == "check" and self.phase == "asking" and self.at:
            return seconds * (63 - self.at) / (self.at + 1)
        if task != "run" or not self.passes or not seconds:
            return None
        rest = PASS - (self.frames - self.begun) if self.passes > self.since else 0
        frames = max(self.since + IDLE - self.passes, 0) * PASS + max(rest, 0) + EACH * (more or 0)
        return seconds * frames / self.frames

    def far(self, task: str, seconds: float, language: str, more: int | None = None) -> list[str]:
        """How far it is, in some words each, of which the first say most."""
        parts = [texts.text("pass", language, **{"pass": self.passes})] if task == "run" and self.passes else []
        parts.append(texts.text(f"far:{self.phase or 'begins'}", language, at=self.at))
        if (left := self.seconds_left(task, seconds, more)) is not None:
            parts.append(texts.text("far:about" if task == "check" or more is not None else "far:least", language, time=time_of(left)))
        parts += [texts.text("far:found", language, found=self.found)] if self.found is not None else []
        return [*parts, texts.text("far:frames", language, frames=self.frames)]


def time_of(seconds: float) -> str:
    return f"{max(seconds, 1):.0f} s" if seconds < 60 else f"{seconds / 60:.0f} min"


class View:
    """What a command says, on a terminal or elsewhere, in the language that is spoken there; and on a terminal, below that, how far it is.

    size      how many short addresses the block of a run has
    expected  how many luminaires its table is to have in the end, if that is known
    """

    def __init__(self, task: str, size: int = 0, expected: int | None = None) -> None:
        self.task, self.size, self.expected, self.enrolled, self.left_alone = task, size, expected, None, set()
        self.follower, self.below, self.lock, self.begun, self.painted = Follower(), standard.Below(), threading.Lock(), time.monotonic(), 0.0

    def take(self, event: dict[str, typing.Any]) -> None:
        """Takes an event, and shows how far it is, not too often."""
        with self.lock:
            self.follower.take_event(event)
            if time.monotonic() - self.painted > PAINTS:
                self.paint("")

    def say(self, line: str) -> None:
        """Says a line of the program, unless that only tells what is shown."""
        with self.lock:
            it = texts.heard(line.removesuffix("\n"))
            self.enrolled = int(it.parts["enrolled"]) if it and it.name == "Said::Commissioned" else self.enrolled
            self.left_alone |= {int(it.parts["address"])} if it and it.name == "Said::LeftAlone" else set()
            is_far = self.follower.hear(line.removesuffix("\n"))
            self.paint("" if is_far and self.below.is_able else line)

    def paint(self, said: str, is_last: bool = False) -> None:
        self.painted = time.monotonic()
        more = None if self.expected is None or self.follower.left is None else max(self.expected - self.size + self.follower.left, 0)
        parts = self.follower.far(self.task, self.painted - self.begun, standard.spoken, more)
        self.below.say(said, [] if is_last or not self.follower.frames else [parts])

    def end(self) -> None:
        """Says at the end if other luminaires are in the table than were expected."""
        with self.lock:
            is_less = self.expected is not None and self.enrolled is not None and self.enrolled != self.expected
            self.paint(f"{self.expected} luminaires were expected, and {self.enrolled} are in the table\n" if is_less else "", True)
