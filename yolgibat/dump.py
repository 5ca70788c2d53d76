"""Draws a story as a value change dump of the bus, with nominal times: docs/FORMAT.md says what is in it."""

import itertools
import re

from yolgibat import story

# How many µs a half bit takes.
HALF = 417
# How many half bits the bus is at rest: for a stop condition; beyond that before a frame of each priority, after RANDOMISE,
# before a backward frame, while it is quiet, and at the end (docs/VENDOR.md).
STOP, WAITS, AFTER_RANDOMISE, BEFORE_ANSWER, QUIET, AT_END = 6, {1: 28, 2: 31, 3: 35, 4: 39, 5: 43}, 240, 13, 288, 48
RANDOMISE = 0xA700
# The priority of direct arc power and of other devices, of a frame that begins a transaction, and of each later one.
ARC, FIRST, LATER = 2, 3, 1
# A destroyed frame is broken off after so many half bits, and the bus is low for so many more: no frame is.
WHOLE, BREAK = 18, 4
# A damaged answer begins low for two half bits, which no frame does.
DAMAGED = [True, True, *23 * [False]]
# What no word of a dump has.
NO_WORD = re.compile(r"[^\"-~]")
HEADER = """\
$version Yolgibat $end
$comment
  Times are nominal, and none of them was measured: a half bit takes 417 us, and between frames are settling times
  from the middle of what IEC 62386-101:2014 allows. docs/FORMAT.md of Yolgibat says what the variables are.
$end
$timescale 1 us $end
$var wire 1 ! dali $end
$var string 1 t transaction $end
$var string 1 f frame $end
$var string 1 h heard $end
$var string 1 a answering $end
$var string 1 e event $end
$enddefinitions $end
#0
1!
s- t
s- f
s- h
s- a
s- e
"""


def levels(number: int, bits: int) -> list[bool]:
    """The half bits of a frame of so many bits, with its start bit and its stop condition: true where the bus is low."""
    frame = [True, *(number >> at & 1 == 1 for at in reversed(range(bits)))]
    return [low for bit in frame for low in (bit, not bit)] + STOP * [False]


def driven(bus: list[bool], begin: int, frame: list[bool]) -> list[bool]:
    """The bus where a sender drives it too, from a half bit on: low where either is."""
    frame = begin * [False] + frame
    return [low or other for low, other in itertools.zip_longest(bus, frame[: len(bus)], fillvalue=False)]


def broken(frame: list[bool]) -> list[bool]:
    """A frame that is broken off."""
    return [*frame[:WHOLE], *BREAK * [True], *STOP * [False]]


def frame_levels(event: story.Line) -> list[bool]:
    """The forward frame of an event, as it stands on the bus."""
    if "frame" not in event:
        return broken(levels(0, 16))
    whole = levels(int(event["frame"], 16), 16)
    if event["kind"] == "collided":
        whole = driven(whole, 0, levels(int(event["other_frame"], 16), 16))
    return broken(whole) if event["kind"] in ("destroyed", "collided") else whole


def heard_levels(event: story.Line) -> list[bool]:
    """What is heard after the frame of an event, from the time before it on. The gear that answer drive the bus together."""
    heard = event.get("heard", "silence")
    if heard == "silence":
        return []
    answer = levels(int(heard, 16), 8) if heard != "damaged" else DAMAGED
    if heard == "damaged":
        for at, it in enumerate(event.get("answers", [])):
            answer = driven(answer, min(at, 1), levels(int(it["byte"], 16), 8))
    return [*BEFORE_ANSWER * [False], *answer]


class Dump:
    """A dump that grows event by event, of a story of this source."""

    def __init__(self, source: str) -> None:
        self.text, self.source = HEADER, source
        # Where the dump has come to, in half bits; the priority that each controller asked for last; the last frame on the bus; and
        # whether something stands in the variable `event`.
        self.at, self.asked, self.before, self.is_told = 0, {}, None, False

    def taken(self) -> str:
        """What was drawn since the last time."""
        text, self.text = self.text, ""
        return text

    def end(self) -> None:
        """The bus stays at rest for longer than an answer may take."""
        self.text += f"#{(self.at + AT_END) * HALF}\n"

    def say(self, **values: str) -> None:
        """What the variables are from now on. The code of each is its first letter."""
        self.text += f"#{self.at * HALF}\n" + "".join(f"s{NO_WORD.sub('_', value)} {name[0]}\n" for name, value in values.items())

    def draw(self, lows: list[bool]) -> None:
        """The levels of the bus, which is high before and after them."""
        for at, (was, low) in enumerate(itertools.pairwise([False, *lows]), self.at):
            if low != was:
                self.text += f"#{at * HALF}\n{'10'[low]}!\n"
        self.at += len(lows)

    def take(self, event: story.Line) -> None:
        kind = event["kind"]
        if kind == "acted" and event["order"] == "put":
            self.asked[event.get("controller")] = event.get("priority", LATER)
        elif kind in ("sent", "destroyed", "collided", "foreign"):
            self.take_frame(event)
        elif kind != "offered":
            self.at += QUIET if kind == "quiet" else 0
            self.before = None if kind == "quiet" else self.before
            self.is_told = True
            self.say(event=story.words(event))

    def take_frame(self, event: story.Line) -> None:
        """Draws a frame, and what is heard after it."""
        frame = int(event["frame"], 16) if "frame" in event else None
        self.at += AFTER_RANDOMISE if self.before == RANDOMISE != frame else WAITS[self.priority(event, frame)]
        self.before = frame if event["kind"] in ("sent", "destroyed") else None
        of = f" controller {event['controller']}" if "controller" in event else ""
        first = {"transaction": f"{event['transaction']}{of}" if "transaction" in event else "-"}
        first["frame"] = f"{event.get('frame', '')} {event.get('command', '')}".strip() or "-"
        self.say(**first, heard="-", answering="-", **({"event": "-"} if self.is_told else {}))
        self.is_told = False
        self.draw(frame_levels(event))
        answers = "".join(f" {it['gear']}:{it['byte']}" for it in event.get("answers", []))
        self.say(frame="-", heard=heard_of(event), answering=f"gear{answers}" if answers else "-")
        self.draw(heard_levels(event))

    def priority(self, event: story.Line, frame: int | None) -> int:
        """The priority of a frame: that which its controller asked for, else by its place in its transaction."""
        if event["kind"] == "foreign" or (frame is not None and frame & 0x100 == 0):
            return ARC
        by_place = FIRST if self.source == "bus" and event.get("place") == 0 else LATER
        return self.asked.get(event.get("controller"), by_place)


def heard_of(event: story.Line) -> str:
    """What the variable `heard` says of an event."""
    if event["kind"] != "sent":
        return {"foreign": "-"}.get(event["kind"], event["kind"])
    heard = event.get("heard", "-")
    if event.get("trouble") == "lost":
        return f"{heard}, lost"
    return heard if heard in ("silence", "damaged", "-") else f"byte {heard}"


def of(told: story.Story) -> str:
    drawn, texts = Dump(told.head["source"]), []
    for event in told.events():
        drawn.take(event)
        texts.append(drawn.taken())
    drawn.end()
    return "".join(texts) + drawn.taken()
