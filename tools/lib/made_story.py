"""Makes stories of runs that nobody played, of every kind of line and event, for checks of what reads stories."""

import json
import random
import typing

Line = dict[str, typing.Any]
STATES = ("disabled", "enabled", "withdrawn")
ENDS, FAULTS, RECORDS = ("all-found", "block-full", "gave-up"), ("store", "conflict"), ("reserve", "enrol", "release")
TOLD = ("start", "survey", "heard silence", "heard FF", "heard damaged", "destroyed", "lapsed", "committed", "commit-failed")
# Frames of transactions: the command, and its two bytes, of which the second is the number if there is one.
OPENING = ("INITIALISE all A500", "INITIALISE all A500", "RANDOMISE A700", "RANDOMISE A700")
SEARCH = ("SEARCHADDRH {0:02X} B1{0:02X}", "SEARCHADDRM {0:02X} B3{0:02X}", "SEARCHADDRL {0:02X} B5{0:02X}")
TRANSACTIONS = (
    OPENING,
    (*SEARCH, "COMPARE A900"),
    (*SEARCH[2:], "COMPARE A900"),
    (*SEARCH, "QUERY SHORT ADDRESS BB00"),
    (*SEARCH, "PROGRAM SHORT ADDRESS 5 B70B", "QUERY SHORT ADDRESS BB00"),
    (*SEARCH, "WITHDRAW AB00"),
    ("QUERY RANDOM ADDRESS (H) 5 0BC2", "QUERY RANDOM ADDRESS (M) 5 0BC3", "QUERY RANDOM ADDRESS (L) 5 0BC4"),
    ("TERMINATE A100",),
    ("DAPC 0A80",),
    ("other C1FF",),
)


class Maker:
    """What a story has so far, and what its gear show."""

    def __init__(self, seed: int, gear: int, controllers: int) -> None:
        self.dice = random.Random(seed)
        self.controllers, self.bits, self.begun, self.frames = controllers, 0, -1, 0
        first = {"power": "on", "state": "disabled", "random": "FFFFFF", "search": "FFFFFF", "short": None}
        self.gear: list[Line] = [{"gear": number, **first} for number in range(gear)]
        self.lines: list[Line] = []
        self.number = 0

    def six(self) -> str:
        return f"{self.dice.randrange(1 << 24):06X}"

    def add(self, kind: str, **members: typing.Any) -> None:
        """One event more."""
        self.lines.append({"event": self.number, "kind": kind, "bits": self.bits} | members)
        self.number += 1

    def change(self, gear: Line, **members: typing.Any) -> Line:
        """Changes a gear, and gives what it shows then."""
        gear.update(members)
        return dict(gear)

    def take_search(self, command: str, reached: list[Line]) -> None:
        """Gear with power that are not disabled take a byte of the search address."""
        if not command.startswith("SEARCHADDR"):
            return
        place = 2 * "HML".index(command[10])
        for gear in reached:
            if gear["power"] == "on" and gear["state"] != "disabled":
                gear["search"] = gear["search"][:place] + command[12:14] + gear["search"][place + 2 :]

    def sent(self, controller: int, command: str, frame: str, place: int) -> None:
        """A frame that was sent whole, destroyed, or collided."""
        dice = self.dice
        self.frames += 1
        of = {"controller": controller, "frame": frame, "command": command}
        chance = dice.random()
        if chance < 0.005 and self.controllers > 1:
            other = {"other": (controller + 1) % self.controllers, "other_frame": "A900", "other_command": "COMPARE"}
            self.add("collided", **of, **other, trouble="collided")
            return
        run = {"transaction": self.begun, "place": place}
        if chance < 0.01:
            reached = [gear for gear in self.gear if dice.random() < 0.5]
            self.take_search(command, reached)
            takers = [gear["gear"] for gear in reached]
            self.add("destroyed", **of, **run, takers=takers, trouble="destroyed", changed=[])
            return
        answers = []
        if command.startswith(("COMPARE", "QUERY", "VERIFY")):
            answers = [{"gear": gear["gear"], "byte": "FF"} for gear in self.gear if dice.random() < 2 / len(self.gear)]
        heard = ("silence", "FF")[len(answers)] if len(answers) < 2 else "damaged"
        trouble: Line = {}
        if dice.random() < 0.02:
            heard = "silence" if answers else "damaged"
            trouble = {"trouble": "lost" if answers else "noise"}
        self.bits += 19 + 11 * (heard != "silence")
        self.take_search(command, self.gear)
        changed = []
        if command.startswith(("INITIALISE", "RANDOMISE", "PROGRAM", "WITHDRAW", "TERMINATE")):
            for gear in self.gear:
                if dice.random() < 1.5 / len(self.gear):
                    short = dice.choice((None, dice.randrange(64)))
                    changed.append(self.change(gear, state=dice.choice(STATES), random=self.six(), short=short))
        self.add("sent", **of, **run, heard=heard, answers=answers, **trouble, changed=changed)

    def transaction(self) -> None:
        """The frames of a transaction, each behind the order to send it."""
        dice = self.dice
        controller = dice.randrange(max(1, self.controllers))
        self.begun += 1
        for place, form in enumerate(dice.choice(TRANSACTIONS)):
            command, _, frame = form.format(dice.randrange(256)).rpartition(" ")
            if self.controllers:
                put = {"priority": 1 + (place == 0), "frame": frame, "command": command}
                self.add("acted", controller=controller, told=dice.choice(TOLD), order="put", **put)
            self.sent(controller, command, frame, place)

    def other(self) -> None:
        """Any other event."""
        dice = self.dice
        gear = dice.choice(self.gear)
        of = {"controller": dice.randrange(max(1, self.controllers))}
        acted = of | {"told": dice.choice(TOLD)}
        kinds: list[tuple[str, Line]] = [("lapsed", {"trouble": "lapsed"}), ("quiet", {})]
        kinds.append(("foreign", {"frame": "0BFE", "command": "other"}))
        power = "off" if gear["power"] == "on" else "on"
        if self.controllers:
            kinds += [
                ("acted", acted | {"order": "commit", "record": dice.choice(RECORDS), "short": 5, "random": self.six()}),
                ("acted", acted | {"order": "done", "end": dice.choice(ENDS)}),
                ("acted", acted | {"order": "halt", "fault": dice.choice(FAULTS)}),
                ("offered", of | {"frame": "0A80", "command": "DAPC"}),
                ("down", of | {"trouble": "down"}),
                ("up", of | {"kept": dice.random() < 0.5}),
            ]
        kind, members = dice.choice([*kinds, ("power", {}), ("expired", {})])
        if kind == "power":
            members = {"gear": gear["gear"], "power": power} | ({"trouble": "power-off"} if power == "off" else {})
            members["changed"] = [self.change(gear, power=power, state="disabled", search="FFFFFF")]
        if kind == "expired":
            changed = [self.change(gear, state="disabled")] if gear["state"] != "disabled" else []
            members = {"gear": gear["gear"], "trouble": "expired", "changed": changed}
        self.add(kind, **members)


def stands_of(lines: list[Line], controllers: int) -> list[str]:
    """How each controller stands, by its last order, and by when it went down and came up."""
    stands = ["at-work"] * controllers
    for line in lines:
        if line.get("kind") == "down":
            stands[line["controller"]] = "down"
        elif line.get("kind") in ("up", "acted"):
            named = {"done": line.get("end"), "halt": f"halt-{line.get('fault')}"}.get(line.get("order", ""))
            stands[line["controller"]] = named or "at-work"
    return stands


def made(events: int, seed: int, gear: int = 3, controllers: int = 2) -> list[Line]:
    """The lines of a story of at least so many events: a script, or a bench if there is no controller."""
    maker = Maker(seed, gear, controllers)
    head = {"story": 1, "source": "script" if controllers else "bench", "controllers": controllers}
    head |= {"gear": [dict(it) for it in maker.gear]}
    script = [f"site {gear} 0-63" if controllers else f"bench {gear}", "# a line that is passed over"]
    while maker.number < events:
        script.append(f"run {maker.dice.randrange(1, 100)}")
        maker.lines.append({"line": len(script), "report": f"ran {len(script)}\n" * maker.dice.randrange(3)})
        for _ in range(maker.dice.randrange(12)):
            if maker.dice.random() < 0.8:
                maker.transaction()
            else:
                maker.other()
        if maker.number and maker.dice.random() < 0.1:
            maker.lines.append({"finding": "half-pair", "event": maker.number - 1, "text": "the second frame is missing"})
    head["script"] = "".join(f"{line}\n" for line in script)
    end: Line = {"end": True, "stands": stands_of(maker.lines, controllers), "frames": maker.frames, "bits": maker.bits}
    tables = [{"controller": c, "entries": [{"short": 5, "random": maker.six()}]} for c in range(controllers)]
    return [head, *maker.lines, end | {"gear": maker.gear, "tables": tables}]


def text_of(lines: list[typing.Any]) -> str:
    """The story of these lines. What is a text already stands as it is."""
    return "".join(f"{it if isinstance(it, str) else json.dumps(it, separators=(',', ':'))}\n" for it in lines)


def capture(events: int, seed: int) -> list[Line]:
    """The lines of a story of what was recorded of a bus, which knows no sender, no gear and no answer of a gear."""
    dice, lines, time = random.Random(seed), [], 0
    for number in range(events):
        time += dice.randrange(20_000, 90_000)
        command, _, frame = dice.choice(dice.choice(TRANSACTIONS)).format(dice.randrange(256)).rpartition(" ")
        kind = "sent" if dice.random() < 0.9 else "foreign"
        line = {"event": number, "kind": kind, "time": time, "frame": frame, "command": command}
        lines.append(line | ({"heard": dice.choice(("silence", "FF", "damaged"))} if kind == "sent" else {}))
        if dice.random() < 0.05:
            lines.append({"finding": "wrong-frame", "event": number, "text": "a frame that the audit did not expect"})
    return [{"story": 1, "source": "capture", "gear": []}, *lines, {"end": True}]
