"""The page of a building: its buses, what is known of each, and all luminaires. Below it each bus has the page of a bus."""

import collections.abc
import concurrent.futures
import contextlib
import json
import re
import typing
import zlib

from yolgibat import ROOT, building, command, commanding, places, serving

PAGE = ROOT / "yolgibat/building.html"
# The page of a bus below that of its building: its number, and what is asked for there.
BELOW = re.compile(r"bus/([0-9]{1,4})(/.*)?")
# What may be asked of many buses, and how many are begun side by side.
COMMANDS, LANES = ("run", "check", "mend"), 8


class Bus(commanding.Bus):
    """A bus of a building. A command has it alone while it goes on; between commands others may work on it, and what they found is read."""

    def __init__(self, building: str, entry: building.Entry, program: str, number: int, way: "list[Bus]") -> None:
        site, *more = entry.sites(program)
        super().__init__(site, (), more)
        self.read_table()
        self.building, self.name, self.is_well = building, entry.name, False
        # Its number, the buses of a walk through the building, what holds its lock, and what was told of its luminaires at which stamp.
        self.number, self.way, self.holds, self.listed = number, way, contextlib.ExitStack(), (None, "")

    def start(self, name: str, address: object, words: list[str] | None = None) -> commanding.Command:
        try:
            with contextlib.ExitStack() as held:
                self.kept = (held.enter_context(building.alone(self.site.records[0])),)
                command = super().start(name, address, words)
                self.holds = held.pop_all()
                return command
        except building.Taken as why:
            raise commanding.Busy(str(why)) from why

    def rest(self) -> None:
        self.holds.close()
        super().rest()

    def state(self) -> dict[str, typing.Any]:
        later = self.way[self.way.index(self) + 1 :] if self in self.way else []
        return super().state() | {"onward": {"number": later[0].number, "name": later[0].name} if later else None}

    def changed(self) -> tuple[object, ...]:
        """What changes if something changes that is known of a luminaire, as far as it was looked at last."""
        return self.seen, commanding.stamp_of(self.names), self.command and self.command.number, self.idle.is_set()

    def luminaires(self) -> str:
        """The luminaires of this bus as JSON, each as a list, made anew if something has changed, or goes on."""
        with self.lock:
            changed = self.changed()
            if self.listed[0] != changed or not changed[-1]:
                them = [[self.number, *(it[key] for key in ("address", "random", "place", "is", "heard"))] for it in self.places()]
                self.listed = changed, json.dumps(them, ensure_ascii=False, separators=(",", ":"))[1:-1]
            return self.listed[1]

    def learn(self, command: commanding.Command, report: dict[str, typing.Any]) -> None:
        super().learn(command, report)
        if command.name in COMMANDS:
            self.is_well = command.outcome() == commanding.DONE

    def forget(self) -> None:
        super().forget()
        self.is_well = False

    def summary(self) -> dict[str, typing.Any]:
        """What the page of the building shows of it."""
        with self.lock:
            odd, silent = sorted({*self.left_alone, *self.strangers}), sorted(at for at, _ in self.silent)
            missing, command, walk = sorted(at for at, _ in self.missing), self.command, self.walking()
            found = {"name": self.name, "count": len(self.table), "odd": odd, "silent": silent, "missing": missing, "trouble": self.trouble}
            found |= {"unaddressed": self.unaddressed, "checked": self.checked, "words": None, "status": None, "mends": self.mends()}
            if walk:
                return found | {"is": "busy", "command": "identify", "address": walk.address(), "found": None, "frames": None, "phase": None}
            if not self.idle.is_set():
                told = command.followed().state()
                return found | {"is": "busy", "command": command.name, "address": command.address, **told}
            is_ill = command and command.outcome() not in commanding.WHOLE
            # A walk stops who blinks.
            if is_ill := is_ill and not (command.name == "identify" and command.outcome() >= commanding.STOPPED):
                found |= {"words": commanding.end_of(command.name, command.outcome()), "status": command.outcome()}
            if is_ill or odd or silent or missing or self.unaddressed or self.trouble:
                return found | {"is": "look"}
            is_well = self.is_well or self.checked is not None
            return found | {"is": "well" if is_well else "known" if self.table else "never"}


class Server(serving.Server):
    def __init__(self, name: str, them: list[Bus], port: int, token: str) -> None:
        self.name, self.buses, self.way = name, them, them[0].way
        self.building_pages, self.building_policy = serving.prepared(PAGE)
        super().__init__(None, port, token, Handler)

    def stamp(self) -> str:
        """What changes if something changes that is known of a luminaire."""
        return f"{zlib.crc32(repr([it.changed() for it in self.buses]).encode()):08X}"

    def each(self, numbers: collections.abc.Iterable[int], call: collections.abc.Callable[[Bus], None]) -> None:
        with concurrent.futures.ThreadPoolExecutor(LANES) as lanes:
            list(lanes.map(lambda it: call(self.buses[it]), numbers))

    def end(self) -> None:
        """Stops what goes on, and waits for its end."""
        for it in self.buses:
            it.stop()
        for it in self.buses:
            it.end()


class Handler(serving.Handler):
    """One request, of the building or of a bus."""

    number: int | None = None

    @property
    def bus(self) -> Bus:
        return self.server.buses[self.number]

    def asked(self) -> str:
        """What is asked for of the building, or of the bus that is asked for."""
        what = super().asked()
        below = BELOW.fullmatch(what)
        if not below:
            return what
        self.number = int(below[1])
        if self.number >= len(self.server.buses):
            raise serving.Refused(404, "nothing stands here")
        if not below[2]:
            raise serving.Refused(308, "the page is there", ("Location", f"/{self.server.token}/bus/{self.number}/"))
        return below[2][1:]

    def answer(self, known: dict[str, collections.abc.Callable[[], None]]) -> None:
        if not re.match(r"/[^/]*/bus/", self.path):
            known = {
                "GET": {"": self.show_all, "state": self.tell_all, "luminaires": self.tell_luminaires, "table.csv": self.tell_whole_csv},
                "POST": {"do": self.do_all, "walk": self.walk_all, "stop": self.stop_all},
            }[self.command]
        super().answer(known)

    def show_all(self) -> None:
        page = self.server.building_pages[self.language()]
        self.write(200, "text/html", page, policy=self.server.building_policy)

    def tell_all(self) -> None:
        self.server.each([it.number for it in self.server.buses if it.is_stale()], Bus.refresh)
        them = [it.summary() for it in self.server.buses]
        for it in them:
            it["trouble"] = it["trouble"] and " ".join(map(self.said, it["trouble"].splitlines()))
        found = {"name": self.server.name, "version": commanding.VERSION, "trouble": None, "stamp": self.server.stamp(), "buses": them}
        found["way"] = self.server.way[0].number if self.server.way else None
        self.write(200, "application/json", json.dumps(found))

    def tell_luminaires(self) -> None:
        stamp, found = self.server.stamp(), ",".join(filter(None, (it.luminaires() for it in self.server.buses)))
        self.write(200, "application/json", f'{{"stamp":"{stamp}","luminaires":[{found}]}}')

    def tell_whole_csv(self) -> None:
        them = [{"bus": bus.name, **it} for bus in self.server.buses for it in places.rows(bus.table, places.read(bus.names))]
        more = ("Content-Disposition", 'attachment; filename="luminaires.csv"')
        self.write(200, "text/csv", places.as_csv(them, "bus", is_german=self.language() == command.GERMAN), more)

    def do_all(self) -> None:
        """Begins a command on many buses. One on which something goes on is left as it is."""
        asked = self.body()
        name, numbers, refused = asked.get("command"), self.numbers_of(asked), []
        if name not in COMMANDS:
            raise commanding.Bad("this is none of the commands")

        def begin(bus: Bus) -> None:
            try:
                bus.begin(name)
            except (commanding.Busy, OSError) as why:
                refused.append(f"{bus.name}: {why}")

        self.server.each(numbers, begin)
        if refused and len(refused) == len(numbers):
            raise commanding.Busy(refused[0])
        self.tell_all()

    def numbers_of(self, asked: dict[str, typing.Any]) -> list[int]:
        """The numbers of the buses that a page asks for."""
        numbers = asked.get("buses")
        if not isinstance(numbers, list) or not all(type(it) is int and 0 <= it < len(self.server.buses) for it in numbers):
            raise commanding.Bad("the numbers of buses are wanted")
        return numbers

    def walk_all(self) -> None:
        """A walk goes by these buses: by those that have a luminaire without place, or by all if none has. Their pages lead on."""
        them = [self.server.buses[it] for it in self.numbers_of(self.body())]
        them = [it for it in them if it.walkable()]
        self.server.way[:] = [it for it in them if not it.is_placed()] or them
        self.tell_all()

    def stop_all(self) -> None:
        self.body()
        for it in self.server.buses:
            it.stop()
        self.tell_all()


def made(whole: building.Building, program: str) -> list[Bus]:
    """The buses of a building, each with what is known of it."""
    way: list[Bus] = []

    def make(number: int) -> Bus:
        bus = Bus(whole.name, whole.entries[number], program, number, way)
        # So the page has not to wait for it.
        with contextlib.suppress(places.Unreadable):
            bus.luminaires()
        return bus

    with concurrent.futures.ThreadPoolExecutor(LANES) as lanes:
        return list(lanes.map(make, range(len(whole.entries))))
