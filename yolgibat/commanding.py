"""The commands of a page: six of `dali_commission`, one at a time over one driver, and what is known of the bus by them."""

import contextlib
import json
import os
import pathlib
import signal
import subprocess
import threading
import time
import typing

from yolgibat import ROOT, apart, following, joining, marks, places, serials, telling, texts

if typing.TYPE_CHECKING:
    from yolgibat import walking

# The commands that a page may ask for.
COMMANDS = ("run", "check", "identify", "replace", "mend")
ADDRESSES = range(64)
# The program, as it calls itself.
VERSION = (ROOT / "yolgibat/help/dali_commission-version.txt").read_text().strip()
# How many lines are kept of what a command says, how long each may be, and how much it may write.
LINES, LONGEST, MUCH = 200, 400, 1 << 20
# How many seconds a command has to end once it was stopped, before it is asked again.
PATIENCE = 8
# The statuses of which something more is known; all of a signal are one.
DONE, NOT_SO, DRIVER, BLOCK_FULL, GAVE_UP, NOBODY, NOTHING, SHARED, NOT_CLEARED, UNCLEAR, STOPPED = 0, 1, 4, 6, 7, 10, 11, 13, 14, 15, 128
# Those behind which the same is to be done again.
AGAIN = (DRIVER, GAVE_UP, NOBODY, NOTHING)
# Those of a command that has done all of its asking, whatever it found.
WHOLE = (DONE, NOT_SO, SHARED, UNCLEAR)
# What the controllers of a bus do in turn, each over its own records and at its own addresses; and of what one may hear no gear.
IN_TURN, HEARS = ("run", "check", "mend"), ("check", "mend")
# What is known of a short address that `mend` is for.
MENDS = ("left-alone", "several", "unclear", "strangers", "unclear-strangers")
# Lines, by their names in the list of texts, before which the program, or the driver, may say why; and those that say no cause.
ENDS = ("Failure::BlockFull", "Failure::GaveUp", "Failure::Conflict", "Failure::Spent", "say:driver-ended-before", "say:driver-signal-before")
CAUSELESS = ("Said::AsksAddresses", "Said::AsksTables", "Said::AsksAll", "Said::Commissioned")
# The words of an end, and what can be done, stand in yolgibat/texts.json: by command and status, or by status alone.
END, ODD, SILENT, COUNT, OTHER = "end:{}:{}", "end:run:odd", "end:run:silent", "end:run:count", "end:other"
# The words of ends that leave something to be mended, which are not as bad as others.
OPEN = ("end:13", "end:mend:13", "end:15")


class Busy(Exception):
    """A command goes on, and no second one begins."""


class Bad(Exception):
    """What is asked for is none of the commands, or has other words."""


class Site(typing.NamedTuple):
    """What a page was started with. The first file of the records is that of its runs."""

    program: str
    records: list[str]
    others: list[str]
    block: str
    driver: list[str]
    seconds: float
    # The driver as the command line names it; and how many luminaires there are, if that is said.
    title: str
    expected: int | None = None


def address_of(value: object) -> int:
    if type(value) is not int or value not in ADDRESSES:
        raise Bad("a short address is a number from 0 to 63")
    return value


def addresses_in(blocks: typing.Iterable[str]) -> set[int]:
    """The short addresses of these blocks."""
    return {it for block in blocks for first, last in [map(int, block.split("-"))] for it in range(first, last + 1)}


def words_of(site: Site, command: str, address: object, missing: object) -> list[str]:
    """The words of the program for a command."""
    others = [word for it in site.others for word in ("--others", it)]
    if command == "run":
        return ["run", "--records", site.records[0], *others, "--json", site.block]
    if command == "check":
        records = ["--records", site.records[0]] if os.path.exists(site.records[0]) else []
        return ["check", *records, *others, "--json"]
    if command == "identify":
        return ["identify", "--json", str(address_of(address))]
    if command == "clear":
        return ["clear", "--json", "--yes", *(word for it in site.records for word in ("--records", it))]
    if command not in ("mend", "replace") or not isinstance(missing, (list, tuple)):
        raise Bad("this is none of the commands")
    gone = [word for it in missing[:64] for word in ("--missing", str(address_of(it)))]
    if command == "mend":
        # A further controller that has not run yet has no file.
        first, *rest = site.records
        records = [word for it in (first, *filter(os.path.exists, rest)) for word in ("--records", it)]
        return ["mend", "--json", *records, *gone, *others, *([] if address is None else [str(address_of(address))]), site.block]
    records = [word for it in site.records for word in ("--records", it)]
    block = [site.block] if len(site.records) == 1 else []
    return ["replace", "--json", *records, *gone, str(address_of(address)), *block]


def missing_in(words: list[str]) -> list[int]:
    """The short addresses that the words of a command name as those of luminaires that are gone."""
    return [int(it) for before, it in zip(words, words[1:]) if before == "--missing"]


def look_of(status: int, words: str) -> str:
    """How well an end is: what left a gear that is not understood, or did not hear one of the table, has not done all."""
    if status == DONE:
        return "part" if words in (ODD, SILENT, COUNT) else "good"
    return "part" if status >= STOPPED or words in OPEN else "bad"


def end_of(command: str, status: int, odd: list[int] = (), silent: list[int] = (), is_other: bool = False) -> str:
    """The key of the words that say what an end is, and what can be done. Other luminaires than were expected may be in the table."""
    status = STOPPED if status >= STOPPED else status
    if (command, status) == ("run", DONE) and (odd or silent or is_other):
        return ODD if odd else SILENT if silent else COUNT
    known = texts.of(texts.FIRST)
    return next((it for it in (END.format(command, status), f"end:{status}") if it in known), OTHER)


def is_causeless(it: texts.Heard | None) -> bool:
    return it is not None and (it.name in CAUSELESS or it.name == "Failure::Driver" and texts.heard(it.parts["cause"]).name == "DriverFault::Ended")


def object_of(text: bytes) -> dict[str, typing.Any]:
    """What a program wrote as an object of JSON, which may be none."""
    try:
        value = json.loads(text)
    except ValueError:
        return {}
    return value if isinstance(value, dict) else {}


def merged(reports: list[dict[str, typing.Any]]) -> dict[str, typing.Any]:
    """What the controllers of a bus reported in turn, as one report."""
    found = dict(reports[-1])
    for key in ("left_alone", "missing", "strangers"):
        them = [one for it in reports for one in it.get(key, [])]
        found |= {key: [it for at, it in enumerate(them) if it not in them[:at]]} if key in found else {}
    if "unaddressed" in found:
        found["unaddressed"] = any(it.get("unaddressed") for it in reports) or found["unaddressed"]
    return found


def unfinished_address(records: str) -> int | None:
    """The short address whose replacement is not finished, as the journal beside a file says it."""
    try:
        line = pathlib.Path(f"{os.path.realpath(records)}.replacing").read_text().split("\n")[1]
        return address_of(int(line.split()[0]))
    except (OSError, ValueError, IndexError, Bad):
        return None


def stamp_of(file: str | os.PathLike[str]) -> tuple[int, int] | None:
    """What changes if a file does."""
    try:
        found = os.stat(file)
    except OSError:
        return None
    return found.st_mtime_ns, found.st_size


class Command:
    """A command that goes on, or has ended: what it says, how far it is, and the story of its frames, in memory.

    number  how many commands were begun before
    before  the commands of the controllers that had their turn before this one
    known   how many luminaires its tables had before, and `expected` how many they are to have in the end, if that is known
    """

    known, expected = 0, None

    def __init__(
        self, site: Site, number: int, name: str, address: int | None, words: list[str], kept: tuple[int, ...],
        before: "tuple[Command, ...]" = (), left: apart.Left | None = None,
    ) -> None:
        self.number, self.name, self.address, self.said, self.before, self.begun = number, name, address, [], before, left.begun if left else time.time()
        self.status = self.ended = None
        self.is_stopped, self.report, self.lock, self.missing = False, {}, threading.Lock(), missing_in(words)
        self.story, self.follower = left.story if left else os.memfd_create("story"), following.Follower()
        self.process = left or apart.Process([[site.program, *words], site.driver, site.seconds, name == "identify"], (self.story, *kept))

    def follow(self) -> None:
        """Hears what it says until it has ended."""
        writes = threading.Thread(target=self.take)
        writes.start()
        while line := self.process.stderr.readline(LONGEST):
            self.hear(line.decode(errors="replace").rstrip())
        writes.join()
        self.process.wait()
        self.ended = time.time()
        self.status = self.process.returncode if self.process.returncode >= 0 else STOPPED - self.process.returncode
        if isinstance(self.process, apart.Left):
            # How a run stands is all that its story tells of its end.
            self.status = next((status for status, name in telling.STANDS.items() if [name] == self.followed().stands), STOPPED)

    def take(self) -> None:
        text = self.process.stdout.read(MUCH)
        while self.process.stdout.read(MUCH):
            pass
        self.report = object_of(text)

    def hear(self, line: str) -> None:
        if line and not self.followed().hear(line):
            self.said = [*self.said[1 - LINES :], line]

    def statuses(self) -> list[int]:
        """What each turn counts for. If a block is full, the next controller serves the rest; and a check or a mending hears none at the addresses of a
        controller that has no gear, if another one's gear answer."""
        turns = (*self.before, self)
        is_heard = self.name in HEARS and any(it.status in WHOLE for it in turns)
        is_well = lambda it: it.status == BLOCK_FULL and it is not self or is_heard and it.status == NOBODY and not it.report.get("missing")
        return [DONE if is_well(it) else it.status for it in turns]

    def outcome(self) -> int | None:
        """The worst status of all turns."""
        return None if self.status is None else max(self.statuses())

    def told(self, begin: int) -> bytes:
        """The lines of its story from a byte on, as far as they are whole."""
        came = os.pread(self.story, MUCH, begin)
        return came[: came.rfind(b"\n") + 1]

    def followed(self) -> following.Follower:
        """What its story tells up to now."""
        with self.lock:
            while came := self.told(self.follower.bytes):
                self.follower.take(came)
        return self.follower

    def stop(self) -> None:
        """Asks it to end, and once more where it does not."""
        if not self.is_stopped:
            self.is_stopped = True
            self.process.send_signal(signal.SIGTERM)
            threading.Thread(target=self.urge, daemon=True).start()

    def urge(self) -> None:
        time.sleep(PATIENCE)
        if self.status is None:
            self.process.send_signal(signal.SIGINT)

    def more(self) -> int | None:
        """How many luminaires more are expected."""
        return None if self.expected is None else max(self.expected - self.known - (self.follower.found or 0), 0)

    def part(self) -> float | None:
        """Which part is done: of a run of those that are expected, if that is known; else of the addresses that are asked."""
        if self.name == "run" and self.expected:
            return min(self.known + (self.follower.found or 0), self.expected) / self.expected
        return (self.follower.at + 1) / len(ADDRESSES) if self.name in ("run", "check") and self.follower.phase == "asking" else None

    def reason(self) -> list[str]:
        """What was said last, with the line before it if that says why it ended so."""
        said = [it for it in self.said if not is_causeless(texts.heard(it))]
        last = texts.heard(said[-1]) if said else None
        return said[-2 if last and last.name in ENDS else -1 :]

    def state(self, odd: list[int], silent: list[int], is_other: bool = False) -> dict[str, typing.Any]:
        """What a page shows of it. These short addresses have somebody who is not understood, or not as is recorded; these nobody who answers."""
        follower = self.followed()
        followed = follower.state() | {"part": self.part(), "about": self.name == "check" or self.expected is not None, "remains": None}
        if (left := follower.seconds_left(self.name, time.time() - self.begun, self.more())) is not None:
            followed["remains"] = following.time_of(left)
        state = {"command": self.name, "address": self.address, "begun": self.begun, "said": self.said, **followed}
        state |= {"stopped": self.is_stopped, "status": self.outcome()}
        state |= {"lit": self.address in self.follower.lit, "seconds": (self.ended or time.time()) - self.begun}
        if self.status is not None:
            state |= {"frames": self.report.get("frames", followed["frames"]), "end": self.report.get("end")}
            words = end_of(self.name, self.outcome(), odd, silent, is_other)
            look = look_of(self.outcome(), words)
            state |= {"words": words, "look": look, "reason": self.reason() if look == "bad" and self.outcome() not in WHOLE else []}
        return state


class Bus:
    """What is known of a bus, and the command that goes on over it. Threads share it.

    kept   the descriptors that a command keeps open until it has ended
    sites  what it is to each of its controllers that are served here; they take turns
    name   what it is called, and `building` the building that it is in, if it is in one
    """

    building: str | None = None

    def __init__(self, site: Site, kept: tuple[int, ...] = (), more: typing.Sequence[Site] = ()) -> None:
        self.site, self.kept, self.sites, self.lock, self.idle = site, kept, (site, *more), threading.RLock(), threading.Event()
        self.names, self.command, self.trouble, self.expected = places.file_of(site.records[0]), None, None, site.expected
        self.name = self.names.name.removesuffix(places.ENDING)
        # The table as it was read last, who of it was there and who was silent when asked last; what the last check found beside it, and when; the addresses that
        # the last run left alone.
        self.table, self.there, self.silent, self.unaddressed = [], set(), set(), None
        self.left_alone, self.strangers, self.missing, self.checked = marks.read(marks.file_of(site.records[0]))
        # The walk, and the turns of all walks up to now, so that no turn of one is taken for another one's; and how many luminaires the last
        # one has been at and how many it has left, until something else begins.
        self.walk, self.turns, self.walked = None, 0, None
        # After which command it was looked last whether others have changed something, and what the files were then.
        self.last, self.seen = None, self.stamp()
        self.idle.set()

    def read_table(self) -> None:
        """Reads the tables of all controllers as one, unless a command goes on, which tells it at its end."""
        with self.lock:
            if self.idle.is_set():
                self.read_tables()

    def read_tables(self) -> None:
        found = {}
        for it in self.sites:
            rows, self.trouble = self.rows_of(it.records[0])
            if self.trouble:
                return
            found |= {row["address"]: row for row in rows}
        self.table = list(found.values())

    def stamp(self) -> tuple[object, ...]:
        """What changes if others change the records, or what is odd on the bus."""
        files = [it for file in self.site.records for it in (file, f"{file}-wal")]
        return tuple(map(stamp_of, (*files, marks.file_of(self.site.records[0]))))

    def is_stale(self) -> bool:
        """Whether something may have changed since it was looked at last."""
        return self.command is not self.last or self.stamp() != self.seen

    def refresh(self) -> None:
        """Reads what is known anew, if another than a command of this page has changed it."""
        with self.lock:
            if not self.idle.is_set():
                return
            stamp = self.stamp()
            if stamp != self.seen and self.command is self.last:
                self.forget()
                if stamp[:-1] != self.seen[:-1]:
                    self.read_table()
            self.seen, self.last = stamp, self.command

    def forget(self) -> None:
        """Knows no more than what is kept. If the records are put aside, as by `clear`, nothing is odd any more."""
        file = marks.file_of(self.site.records[0])
        if any(self.seen[:-1]) and not any(it for records in self.site.records for it in (stamp_of(records), unfinished_address(records) is not None)):
            marks.keep(file, marks.Marks())
        self.left_alone, self.strangers, self.missing, self.checked = marks.read(file)
        self.there, self.silent, self.unaddressed = set(), set(), None

    def rows_of(self, records: str) -> tuple[list[places.Row], str | None]:
        """The table of a file, and what is wrong with it."""
        if not os.path.exists(records) and unfinished_address(records) is None:
            return [], None
        try:
            words = [self.site.program, "table", "--json", "--records", records]
            done = subprocess.run(words, stdin=subprocess.DEVNULL, capture_output=True, timeout=60)
            if done.returncode:
                return [], done.stderr.decode(errors="replace").strip() or end_of("table", done.returncode)
            return json.loads(done.stdout), None
        except (OSError, ValueError, subprocess.TimeoutExpired) as why:
            return [], str(why)

    def begin(self, name: object, address: object = None, missing: object = (), expected: object = None) -> None:
        """Begins a command, if none goes on, and no walk. So many luminaires are expected of a run, if that is said."""
        if not isinstance(name, str) or name not in COMMANDS:
            raise Bad("this is none of the commands")
        if expected is not None and (type(expected) is not int or not 0 < expected <= len(ADDRESSES)):
            raise Bad("the number of luminaires is one from 1 to 64")
        words = words_of(self.site_of(name, address), name, address, missing)
        with self.lock:
            if self.walking():
                raise Busy("a walk goes on")
            self.refresh()
            if not {*missing_in(words)} <= {it["address"] for it in self.table}:
                raise Bad("the table has no such short address")
            self.expected = expected if name == "run" else self.expected
            self.start(name, address, words)
            self.walked = None

    def start(self, name: str, address: object, words: list[str] | None = None) -> Command:
        """Begins a command, if none goes on."""
        if not self.idle.is_set():
            raise Busy(f"{self.command.name} goes on")
        words = words or words_of(self.site_of(name, address), name, address, ())
        self.refresh()
        old = next((it["random"] for it in self.table if it["address"] == address), None)
        self.start_turn(name, address if isinstance(address, int) else None, words)
        self.idle.clear()
        threading.Thread(target=self.follow, args=(self.command, old), daemon=True).start()
        return self.command

    def go_on(self, left: apart.Left) -> None:
        """Follows a command that an earlier page began."""
        address = next((int(it) for it in left.words if it.isdigit()), None) if left.words[0] != "run" else None
        self.command = Command(self.site, 0, left.words[0], address, left.words, (), left=left)
        self.command.known, self.command.expected = len(self.table), None
        self.idle.clear()
        threading.Thread(target=self.follow, args=(self.command, None), daemon=True).start()

    def site_of(self, name: str, address: object) -> Site:
        """What a command is asked of first: to mend an address, of the controller in whose block it lies."""
        is_its = lambda it: name == "mend" and type(address) is int and address in addresses_in([it.block])
        return next(filter(is_its, self.sites), self.site)

    def start_turn(self, name: str, address: int | None, words: list[str], before: tuple[Command, ...] = ()) -> None:
        """Begins the command of the next controller."""
        number, story = (self.command.number + 1, self.command.story) if self.command else (0, None)
        self.command = Command(self.sites[len(before)], number, name, address, words, self.kept, before)
        self.command.known, self.command.expected = len(self.table), self.expected if name == "run" else None
        if story is not None:
            os.close(story)

    def walking(self) -> "walking.Walk | None":
        if self.walk and not self.walk.is_on:
            self.walked = {"done": len(self.walk.done), "left": len(self.walk.left)}
            self.walk, self.turns = None, self.walk.turn + 1
        return self.walk

    def walkable(self) -> list[dict[str, typing.Any]]:
        """The luminaires of the table that may blink."""
        return [it for it in self.table if (it["address"], it["random"]) not in self.missing]

    def follow(self, command: Command | None, old: str | None) -> None:
        """Waits for the end of a command, and takes what it found. Then the next controller has its turn, if there is one."""
        while command:
            command.follow()
            with self.lock:
                command.followed()
                turns = (*command.before, command)
                is_in_turn = command.name in IN_TURN and command.address is None and not command.is_stopped
                more = self.sites[len(turns) :] if is_in_turn else ()
                if not more:
                    self.rest()
                self.read_tables()
                self.take(command, old)
                command = self.next(command, more[0], turns) if more else None

    def next(self, command: Command, site: Site, turns: tuple[Command, ...]) -> Command | None:
        """The command of the next controller, which begins."""
        try:
            self.start_turn(command.name, None, words_of(site, command.name, None, command.missing), turns)
            return self.command
        except OSError as why:
            command.status = joining.NOT_STARTED
            command.hear(f"the next controller cannot begin: {why.strerror}")
            self.rest()
            return None

    def rest(self) -> None:
        self.idle.set()

    def take(self, command: Command, old: str | None) -> None:
        """Takes what a command found, and keeps it. What cannot be kept is known all the same."""
        try:
            self.learn(command, command.report)
        except (KeyError, TypeError) as why:
            command.hear(f"what it came to is not known: {why}")
            return
        try:
            self.keep(command, old)
        except OSError as why:
            command.hear(f"what it came to is known, but not kept: {why}")

    def keep(self, command: Command, old: str | None) -> None:
        """Keeps where a new luminaire hangs, and what is odd."""
        now = next((it["random"] for it in self.table if it["address"] == command.address), None)
        if command.name == "replace" and command.status == DONE and old and now:
            places.hand_over(self.names, old, now)
        marks.keep(marks.file_of(self.site.records[0]), marks.Marks(self.left_alone, self.strangers, self.missing, self.checked))

    def learn(self, command: Command, report: dict[str, typing.Any]) -> None:
        """Takes what a command found. What is odd stays so until a check finds otherwise, or a replacement has heard the new luminaire there."""
        pairs = {it["address"]: it["random"] for it in self.table}
        if command.name in ("run", "identify", "mend"):
            # Who answered as recorded when it was asked last is there, also if a check missed it; who did not is not.
            heard = {it for it in command.follower.heard.items() if it in pairs.items()}
            asked, silent = command.follower.asked(), command.follower.silent()
            self.there = {it for it in self.there if it[0] not in asked} | heard
            self.silent = {it for it in pairs.items() if it[0] in silent or it in self.silent and it[0] not in asked}
            self.missing -= heard
        if command.name in ("mend", "replace") and report.get("missing"):
            self.miss(command, report["missing"])
        if command.name in ("run", "mend"):
            self.unaddressed = None
            self.left_alone = sorted({*self.left_alone, *report.get("left_alone", [])})
            # Who was heard under an address alone, and is enrolled with it now, is odd no more.
            self.strangers = {at: it for at, it in self.strangers.items() if it[1] is None or it[1] != pairs.get(at)}
        if command.name == "mend" and command.status in (DONE, SHARED, UNCLEAR):
            them = [command.address] if command.address is not None else [*self.left_alone, *(at for at, it in self.strangers.items() if it[0] in MENDS)]
            for at in {*them} - {*report["left_alone"]} - addresses_in(self.sites[len(command.before)].others if command.address is None else ()):
                self.left_alone = [it for it in self.left_alone if it != at]
                self.strangers.pop(at, None)
        turns = (*command.before, command)
        is_whole = len(turns) == len(self.sites) and all(it.status in (*WHOLE, NOBODY) for it in turns)
        if command.name == "check" and is_whole:
            report = merged([it.report for it in turns])
            self.strangers, self.left_alone, self.checked = odd_of(report), [], time.time()
            self.missing, self.silent = {(it, pairs.get(it)) for it in report["missing"]}, set()
            self.there = {it for it in pairs.items() if it not in self.missing and it[0] not in self.strangers}
            self.unaddressed = report["unaddressed"]
        if command.name == "clear" and command.status in (DONE, NOT_CLEARED):
            self.strangers, self.left_alone, self.checked, self.missing = odd_of(report), [], None, set()
            self.there, self.silent, self.unaddressed = set(), set(), report["unaddressed"]
        if command.name == "replace" and command.status == DONE:
            self.left_alone, self.unaddressed = [it for it in self.left_alone if it != command.address], None
            self.strangers.pop(command.address, None)
            self.there |= {it for it in pairs.items() if it[0] == command.address}

    def miss(self, command: Command, gone: list[int]) -> None:
        """Takes which luminaires beside its own the program misses. It knows more than the last answer of each, which may be damaged or lost."""
        others = addresses_in(self.sites[len(command.before)].others) if command.name == "mend" else set()
        asked = {(it["address"], it["random"]) for it in self.table if it["address"] not in {*others, command.address}}
        missed = {it for it in asked if it[0] in gone}
        self.silent, self.missing, self.there = self.silent - asked | missed, self.missing - (asked - missed), self.there - missed

    def stop(self) -> None:
        with self.lock:
            if self.walking():
                self.walk.end()
            if not self.idle.is_set():
                self.command.stop()

    def told(self, number: int | None, begin: int) -> tuple[int, bytes] | None:
        """The number of the command that was begun last, and what its story has from a byte on. None if this is another command, or it has
        ended and nothing more comes."""
        with self.lock:
            if not self.command or number not in (None, self.command.number):
                return None
            came = self.command.told(begin)
            return (self.command.number, came) if came or not self.idle.is_set() else None

    def end(self) -> None:
        """Stops what goes on, and waits for its end."""
        self.stop()
        self.idle.wait(2 * PATIENCE)

    def places(self) -> list[dict[str, typing.Any]]:
        """The short addresses that somebody has or may have, each with what is known of it."""
        names, found = places.read(self.names), {}
        hushed = set() if self.idle.is_set() else self.command.followed().silent()
        silent = self.silent | {(it["address"], it["random"]) for it in self.table if it["address"] in hushed}
        known = {"missing": self.missing, "silent": silent, "there": self.there}
        for it in places.rows(self.table, names):
            what = next((name for name, them in known.items() if (it["address"], it["random"]) in them), "enrolled")
            found[it["address"]] = it | {"is": what, "heard": None}
        for address, (what, random) in self.live().items():
            blank = {"address": address, "random": None, "place": names.get(random), "is": what, "heard": random}
            known = found.setdefault(address, blank)
            if random and known["random"] == random:
                known["is"] = "there"
            else:
                is_another = what == "heard-now" and known["random"]
                found[address] = known | {"is": "another" if is_another else what, "heard": random}
        odd = {it: ("left-alone", None) for it in self.left_alone} | self.strangers
        for address, (what, heard) in odd.items():
            blank = {"address": address, "random": None, "place": names.get(heard)}
            found[address] = found.get(address, blank) | {"is": what, "heard": heard}
        numbers = self.numbers()
        for it in found.values():
            it["serial"] = numbers.get(it["random"] or it["heard"])
        return [found[it] for it in sorted(found)]

    def live(self) -> dict[int, tuple[str, str | None]]:
        """What the command that goes on has heard up to now, by short address."""
        if self.idle.is_set() or self.command.name == "identify":
            return {}
        told = self.command.followed()
        found: dict[int, tuple[str, str | None]] = {it: ("heard-now", random) for it, random in told.heard.items()}
        return found | {it: ("given-now", random) for it, random in told.given.items()} | {it: ("unclear-now", None) for it in told.unclear}

    def state(self) -> dict[str, typing.Any]:
        with self.lock:
            self.refresh()
            trouble, them, spare = self.trouble, [], []
            try:
                names = places.read(self.names)
                them, taken = self.places(), {it["random"] for it in self.table}
                spare = sorted({text for random, text in names.items() if random not in taken})
            except places.Unreadable as why:
                trouble = str(why)
            unfinished = None if not self.idle.is_set() else unfinished_address(self.site.records[0])
            odd, silent, walk = sorted({*self.left_alone, *self.strangers}), sorted(at for at, _ in self.silent), self.walking()
            if walk:
                walk.seen = time.monotonic()
            is_other = self.expected not in (None, len(self.table))
            command = self.command.state(odd, silent, is_other) if self.command else None
            next_step = self.next_step(unfinished) if self.idle.is_set() and not walk else None
            return {
                "site": self.name, "building": self.building, "version": VERSION, "records": self.site.records,
                "block": ", ".join(it.block for it in self.sites), "driver": self.site.title, "trouble": trouble, "busy": not self.idle.is_set(), "command": command,
                "places": them, "odd": odd, "silent": silent, "spare": spare,
                "unaddressed": self.unaddressed, "checked": self.checked, "unfinished": unfinished, "expected": self.expected,
                "walk": walk.state() if walk else None, "walked": self.walked, "onward": None, "next": next_step,
            }

    def mends(self) -> bool:
        """Whether a mending has something to do."""
        return bool(self.left_alone) or any(what in MENDS for what, _ in self.strangers.values())

    def next_step(self, unfinished: int | None) -> dict[str, typing.Any] | None:
        """What is to be done next, with its short address if it has one; or None, if the page does not know."""
        command, status = self.command, self.command and self.command.outcome()
        if unfinished is not None:
            return {"command": "replace", "address": unfinished}
        if command and not self.walked and command.name in IN_TURN and (status in AGAIN or status >= STOPPED):
            return {"command": command.name, "address": command.address}
        if self.mends():
            return {"command": "mend", "address": None}
        gone = [it["address"] for it in self.table if (it["address"], it["random"]) in self.missing]
        if len(gone) == 1:
            return {"command": "replace", "address": gone[0]}
        is_known = self.checked is not None or command is not None
        for name, is_due in (
            ("run", self.unaddressed or not self.table), ("check", self.silent or self.strangers), ("walk", not self.is_placed()), ("check", not is_known)
        ):
            if is_due and not (command and command.name == name and status in WHOLE and self.walked is None and name != "run"):
                return {"command": name, "address": None}
        return None

    def is_placed(self) -> bool:
        """Whether each luminaire that may blink has a place."""
        with contextlib.suppress(places.Unreadable):
            names = places.read(self.names)
            return all(it["random"] in names for it in self.walkable())
        return True

    def numbers(self) -> dict[str, serials.Serial]:
        """The serial numbers that were read, by random address."""
        return serials.read(serials.file_of(self.site.records[0]))

    def csv(self, is_german: bool = False) -> str:
        """The table with the places, as comma-separated values."""
        with self.lock:
            self.read_table()
            return places.as_csv(places.rows(self.table, places.read(self.names), self.numbers()), is_german=is_german)


def odd_of(report: dict[str, typing.Any]) -> dict[int, tuple[str, str | None]]:
    """Who answers otherwise than is recorded, by short address."""
    return {it["address"]: (it["is"], it["random"]) for it in report["strangers"]}
