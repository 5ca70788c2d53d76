"""Tells what was seen of a real bus as a story (docs/FORMAT.md, 'Stories'): what a driver answered, or what a capture has."""

import json
import re
import time
import typing

from yolgibat import ROOT

if typing.TYPE_CHECKING:
    from yolgibat import dump, following

# A line of a program for its driver, and the driver's line without its line feed.
PUT = re.compile(rb"put ([1-5]) ([0-9A-F]{4}) .*\n")
ANSWER = re.compile(rb"silence|byte [0-9A-Fa-f]{2}|damaged|destroyed|lapsed")
# How many bit times a forward frame takes with its start and stop bits, and a backward frame.
FORWARD, BACKWARD = 19, 11
# The commands that have no data, and those whose data is a byte of the search address.
ALONE = {0xA1: "TERMINATE", 0xA7: "RANDOMISE", 0xA9: "COMPARE", 0xAB: "WITHDRAW", 0xBB: "QUERY SHORT ADDRESS"}
SEARCH = {0xB1: "SEARCHADDRH", 0xB3: "SEARCHADDRM", 0xB5: "SEARCHADDRL"}
PARTS = {0xC2: "H", 0xC3: "M", 0xC4: "L"}
# How a run that ended with such a status stands.
STANDS = {0: "all-found", 6: "block-full", 7: "gave-up", 8: "halt-conflict", 13: "left-alone", 15: "unclear"}
# What a finding says, by its name, with its source behind it: the help of ./dali_sim audit, in which a text may go on in lines further in.
HELP, GOES_ON = ROOT / "yolgibat/help/dali_sim-audit.txt", re.compile(r"\n {24}(?=\S)")
FINDING = re.compile(r"^  ([a-z-]+) +((?:is|tells) .*) \((?:10[12],|profile).*\)$", re.M)


def short_of(byte: int) -> int | None:
    """The short address that a byte `0AAAAAA1` has."""
    return byte >> 1 if byte < 0x80 and byte & 1 else None


def command_of(frame: int) -> str:
    """The command of a forward frame, by the standard's name with its argument."""
    address, data = frame >> 8, frame & 0xFF
    short = short_of(data)
    if address & 1 == 0:
        return "DAPC"
    if short_of(address) is not None and data in PARTS:
        return f"QUERY RANDOM ADDRESS ({PARTS[data]}) {short_of(address)}"
    if address in ALONE and data == 0:
        return ALONE[address]
    if address in SEARCH:
        return f"{SEARCH[address]} {data:02X}"
    if address == 0xA5 and (data in (0, 0xFF) or short is not None):
        return f"INITIALISE {'all' if data == 0 else 'no short address' if data == 0xFF else short}"
    if address == 0xB7 and (data == 0xFF or short is not None):
        return f"PROGRAM SHORT ADDRESS {'none' if data == 0xFF else short}"
    if address == 0xB9 and short is not None:
        return f"VERIFY SHORT ADDRESS {short}"
    return "other"


def line_of(members: dict[str, typing.Any]) -> str:
    return json.dumps(members, separators=(",", ":")) + "\n"


def dumped() -> "dump.Dump":
    """A dump of a bus. No run that wants none waits until what draws it is loaded."""
    from yolgibat import dump

    return dump.Dump("bus")


class Run:
    """What a driver tells of a run of one controller, as a story that is written to a file, and as a dump to another one, event by event.

    story, trace  the files, each None if none is wanted
    view          what shows how far the run is, if anything does
    faults        what was wrong with a file, by its name: nothing more was written to it then
    """

    def __init__(
        self, story: typing.BinaryIO | None = None, trace: typing.BinaryIO | None = None, view: "following.View | None" = None
    ) -> None:
        self.story, self.trace, self.view, self.faults = story, trace, view, {}
        self.dump, self.begun, self.waiting = dumped() if trace else None, time.monotonic(), None
        # How many events, transactions and frames there were, how many frames the running transaction has, and the bit times of all.
        self.events, self.transactions, self.frames, self.place, self.bits = 0, 0, 0, 0, 0
        self.write("story", line_of({"story": 1, "source": "bus", "controllers": 1, "gear": []}))
        self.write_trace()

    def put(self, line: bytes) -> None:
        """A program puts this line to its driver."""
        found = PUT.fullmatch(line)
        self.waiting = found and (int(found[1]), int(found[2], 16), int((time.monotonic() - self.begun) * 1_000_000))

    def answer(self, line: bytes) -> None:
        """The driver answers it so. Of a line that is no answer nothing is told: the program refuses it, and ends."""
        if self.waiting and ANSWER.fullmatch(line):
            priority, frame, at = self.waiting
            event = self.event(priority, frame, at, line.decode("ascii"))
            self.write("story", line_of(event))
            if self.dump:
                self.dump.asked[0] = priority
                self.dump.take(event)
            self.write_trace()
            if self.view:
                self.view.take(event)

    def event(self, priority: int, frame: int, at: int, answer: str) -> dict[str, typing.Any]:
        number = self.events
        self.events += 1
        if answer == "lapsed":
            return {"event": number, "kind": "lapsed", "time": at, "trouble": "lapsed"}
        is_begun = priority != 1 or not self.transactions
        self.transactions += is_begun
        self.place = 0 if is_begun else self.place + 1
        self.frames += 1
        is_whole = answer != "destroyed"
        event = {"event": number, "kind": "sent" if is_whole else "destroyed", "time": at, "controller": 0, "frame": f"{frame:04X}"}
        event |= {"command": command_of(frame), "transaction": self.transactions - 1, "place": self.place}
        if is_whole:
            self.bits += FORWARD if answer == "silence" else FORWARD + BACKWARD
        return event | ({"heard": answer.removeprefix("byte ").upper() if answer.startswith("byte") else answer} if is_whole else {"trouble": answer})

    def end(self, status: int | None, left_alone: list[int] = ()) -> None:
        """Nothing more comes: a `run` has ended with this status, and left these short addresses alone, or something else has."""
        if self.dump:
            self.dump.end()
        self.write_trace()
        stands = {"stands": [STANDS[status]]} | ({"left_alone": left_alone} if left_alone else {}) if status in STANDS else {}
        self.write("story", line_of({"end": True, **stands, "frames": self.frames, "bits": self.bits}))

    def write_trace(self) -> None:
        if self.dump:
            self.write("trace", self.dump.taken())

    def write(self, name: str, text: str) -> None:
        """Writes to a file, if it is wanted and can be written."""
        file, left = getattr(self, name), text.encode("ascii")
        try:
            while left and file and name not in self.faults:
                left = left[file.write(left) :]
        except OSError as why:
            self.faults[name] = why.strerror


# Captures.


def findings() -> dict[str, str]:
    """What each finding says, as the help has it."""
    return {name: f"the frame {text}" for name, text in FINDING.findall(GOES_ON.sub(" ", HELP.read_text()))}


def events_of(items: str) -> list[dict[str, typing.Any]]:
    """The events of a capture, by its log: each frame with what was heard after it. What follows no frame, or an answer, is a frame that was
    destroyed, if it is damaged; else it is of no event."""
    found = []
    for line in items.splitlines():
        at, *words = line.split()
        if words[0] == "<" and found and found[-1]["kind"] == "sent" and found[-1]["heard"] == "silence":
            found[-1]["heard"] = words[1]
        elif words == ["<", "damaged"]:
            found.append({"event": len(found), "kind": "destroyed", "time": int(at), "command": "something damaged", "trouble": "destroyed"})
        elif words == ["device"]:
            found.append({"event": len(found), "kind": "foreign", "time": int(at), "command": "a frame of 24 bits"})
        elif words[0] != "<":
            event = {"event": len(found), "kind": "sent", "time": int(at), "frame": words[0]}
            found.append(event | {"command": command_of(int(words[0], 16)), "heard": "silence"})
    return found


def capture_story(items: str, told: dict[str, typing.Any]) -> str:
    """The story of a capture, by its log and by what the audit tells of it as JSON: each finding behind the event at its time."""
    events, words = events_of(items), findings()
    kinds = [(it["at"], it["kind"]) for it in told["findings"]]
    kinds += [(told["other_answer"], "other-answer")] if told["other_answer"] is not None else []
    behind = {}
    for at, kind in kinds:
        event = max((it["event"] for it in events if it["time"] <= at), default=0)
        behind.setdefault(event, []).append({"finding": kind, "event": event, "text": words.get(kind, kind)})
    lines = [{"story": 1, "source": "capture", "gear": []}]
    for event in events:
        lines += [event, *behind.get(event["event"], [])]
    heard = sum(it["kind"] == "sent" and it["heard"] != "silence" for it in events)
    sent, foreign = (sum(it["kind"] == kind for it in events) for kind in ("sent", "foreign"))
    found = [{key: it[key] for key in ("short", "random", "known")} for it in told["gear"] if it["known"] != "unknown"]
    end = {"end": True, "frames": len(events) - foreign, "bits": FORWARD * sent + BACKWARD * heard, "found": found}
    return "".join(map(line_of, [*lines, end]))
