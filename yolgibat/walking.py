"""The walk of a page: one luminaire of the table after the other blinks, until its place is told. It is the server's, so all pages see one."""

import re
import threading
import time
import typing

from yolgibat import commanding, places

# How often it is looked whether something is due, and after how many seconds nobody looks at it any more, so that nothing blinks.
LOOKS, UNWATCHED = 0.05, 60
# A short address, or a range of them, in an order that is written by hand.
ORDER = re.compile(r"([0-9]{1,2})(?:-([0-9]{1,2}))?")
ASKED = ("next", "back", "later", "again", "skip", "order", "end")


class Moved(Exception):
    """What is told is of a luminaire that does not blink, or blinks no more.

    key  the words of the page for it
    """

    def __init__(self, key: str, text: str) -> None:
        super().__init__(text)
        self.key = key


def addresses_of(text: object) -> list[int]:
    """The short addresses of an order that is written by hand, as `12 5 7-9`, each once."""
    found = []
    for word in re.split(r"[\s,;]+", text.strip()) if isinstance(text, str) and text.strip() else []:
        it = ORDER.fullmatch(word)
        first, last = (int(it[1]), int(it[2] or it[1])) if it else (0, 99)
        if max(first, last) > 63:
            raise commanding.Bad(f"'{word}' is no short address and no range of them, as 7-9 or 18-15")
        step = 1 if first <= last else -1
        found += [at for at in range(first, last + step, step) if at not in found]
    return found


class Walk:
    """One walk. All is called with the lock of the bus, but `drive`.

    left   the random addresses of those that are to blink, the one at which it is first; `done` those that had their turn, the last one last
    turn   which turn it is: a page tells a place with the turn and the luminaire that it showed
    shown  whether this luminaire blinks: a frame for its light was sent in this turn
    rests  the key of the words why it does not, until somebody asks for it again
    """

    def __init__(self, bus: "commanding.Bus", turns: int) -> None:
        self.bus, self.turn, self.shown, self.rests, self.is_on = bus, turns, False, None, True
        names, table = places.read(bus.names), [it["random"] for it in bus.walkable()]
        self.left = [it for it in table if it not in names] or table
        self.done, self.last, self.seen = [], "", time.monotonic()
        # The command by which this luminaire blinks.
        self.own: commanding.Command | None = None
        threading.Thread(target=self.drive, daemon=True).start()

    # What is due.

    def drive(self) -> None:
        """Lets the right luminaire blink, until the walk ends."""
        while self.is_on:
            with self.bus.lock:
                if self.is_on:
                    self.look()
            time.sleep(LOOKS)

    def look(self) -> None:
        command = self.bus.command
        if not self.bus.idle.is_set():
            if command is not self.own:
                command.stop()
            elif self.address() in command.followed().lit:
                self.shown = True
        elif self.own and self.own is command and self.is_at_fault(command):
            self.rests, self.shown, self.own = commanding.end_of("identify", command.status), False, None
        elif time.monotonic() - self.seen > UNWATCHED:
            self.shown = False
        elif not self.rests:
            if self.address() is None:
                self.begin_turn()
            else:
                self.blink()

    def blink(self) -> None:
        try:
            self.own = self.bus.start("identify", self.address())
        except (commanding.Busy, OSError):
            self.rests = "why:busy"

    def is_at_fault(self, command: "commanding.Command") -> bool:
        return command.status is not None and 0 < command.status < commanding.STOPPED

    def address(self) -> int | None:
        """The short address of the luminaire at which it is. None if that is in the table no more."""
        return next((it["address"] for it in self.bus.table if self.left and it["random"] == self.left[0]), None)

    def begin_turn(self) -> None:
        """Another luminaire is to blink. One that is in the table no more has no turn; behind the last one the walk ends."""
        known = {it["random"] for it in self.bus.table}
        self.left = [it for it in self.left if it in known]
        self.turn += 1
        self.own, self.shown, self.rests = None, False, None
        if not self.left:
            self.end()

    def end(self) -> None:
        self.is_on = False
        if not self.bus.idle.is_set():
            self.bus.command.stop()

    # What pages ask for.

    def ask(self, asked: dict[str, typing.Any]) -> None:
        """Does what a page asks for, if that page shows the luminaire at which the walk is."""
        what = asked.get("do")
        if what not in ASKED:
            raise commanding.Bad("this is nothing that a walk does")
        if what == "end":
            self.end()
            return
        if asked.get("turn") != self.turn:
            raise Moved("moved", "the walk is at another luminaire by now")
        getattr(self, f"ask_{what}")(asked)

    def ask_next(self, asked: dict[str, typing.Any]) -> None:
        place = asked.get("place")
        if not isinstance(place, str):
            raise commanding.Bad("a place is a text")
        if asked.get("random") != self.left[0]:
            raise Moved("moved", "the walk is at another luminaire by now")
        if not self.shown:
            raise Moved("not-yet", "this luminaire does not blink yet")
        names, place = places.read(self.bus.names), places.clean(place)
        twins = [it for it in self.bus.table if place and it["random"] != self.left[0] and names.get(it["random"]) == place]
        if twins and not asked.get("twice"):
            raise Moved("twice", f"luminaire {twins[0]['address']} has this place, too")
        places.note(self.bus.names, self.left[0], place)
        self.last = place or self.last
        self.done.append(self.left.pop(0))
        self.begin_turn()

    def ask_back(self, _asked: dict[str, typing.Any]) -> None:
        if self.done:
            self.left.insert(0, self.done.pop())
            self.begin_turn()

    def ask_later(self, _asked: dict[str, typing.Any]) -> None:
        self.left.append(self.left.pop(0))
        self.begin_turn()

    def ask_again(self, _asked: dict[str, typing.Any]) -> None:
        self.rests = None

    def ask_skip(self, asked: dict[str, typing.Any]) -> None:
        """Goes to a luminaire, also to one that had its turn."""
        address = commanding.address_of(asked.get("address"))
        random = next((it["random"] for it in self.bus.table if it["address"] == address), None)
        if not random:
            raise Moved("unknown", f"short address {address} is not in the table")
        self.done = [it for it in self.done if it != random]
        self.left = [random, *(it for it in self.left if it != random)]
        self.begin_turn()

    def ask_order(self, asked: dict[str, typing.Any]) -> None:
        """Those that are named come first, in this order."""
        by_address = {it["address"]: it["random"] for it in self.bus.table}
        first = [by_address[it] for it in addresses_of(asked.get("order")) if by_address.get(it) in self.left]
        before, self.left = self.left[0], [*first, *(it for it in self.left if it not in first)]
        if self.left[0] != before:
            self.begin_turn()

    def state(self) -> dict[str, typing.Any]:
        addresses = {it["random"]: it["address"] for it in self.bus.table}
        return {
            "turn": self.turn, "address": self.address(), "random": self.left[0], "shown": self.shown, "rests": self.rests,
            "left": [addresses.get(it) for it in self.left], "done": len(self.done), "last": self.last,
            "back": addresses.get(self.done[-1]) if self.done else None,
        }


def ask(bus: "commanding.Bus", asked: dict[str, typing.Any]) -> None:
    """Does what a page asks of the walk; it is begun if none goes on, and joined if one does."""
    with bus.lock:
        walk, what = bus.walking(), asked.get("do")
        if walk and what != "begin":
            walk.ask(asked)
        elif what == "begin" and not walk:
            if not bus.idle.is_set() and bus.command.name != "identify":
                raise commanding.Busy(f"{bus.command.name} goes on")
            if bus.walkable():
                bus.walk = Walk(bus, bus.turns)
        elif what not in ("begin", "end"):
            raise Moved("moved", "no walk goes on")
