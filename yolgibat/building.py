"""Does one thing on many buses of a building side by side, which a file names: its help and docs/BUILDING.md say what.

The status is the greatest of all buses; 5 also if a bus is used, or the file of --since cannot be had."""

import argparse
import collections
import collections.abc
import concurrent.futures
import contextlib
import fcntl
import json
import os
import pathlib
import re
import resource
import shlex
import signal
import subprocess
import sys
import time
import typing

from yolgibat import command, commanding, joining, places, programs, standard, texts

# The file.

# What a table of the file may have: of the whole, of [defaults], and of a [[bus]].
WHOLE, DEFAULTS = ("name", "defaults", "bus"), ("driver-timeout", "block", "others")
BUS = ("name", "driver", "records", *DEFAULTS)
# A name of a bus, from the whole to its part, as `school.ground.3`; the head of a table, and a key.
NAME = re.compile(r"[A-Za-z0-9_-]+(?:\.[A-Za-z0-9_-]+)*")
HEAD, KEY = re.compile(r"\s*\[+\s*([\w.-]+)\s*\]+\s*(?:#.*)?"), re.compile(r"\s*\"?([\w-]+)\"?\s*[=.]")
AT = re.compile(r" \(at (?:line (\d+), column \d+|end of document)\)$")


class Wrong(command.BadWord):
    """What is wrong with a file: its line, its key and the reason."""


class Entry(typing.NamedTuple):
    """A bus of a building: its name, its driver as words and as it is written, and the files of its controllers, each with its block."""

    name: str
    driver: list[str]
    title: str
    seconds: float
    records: list[tuple[str, str]]
    others: list[str]

    def sites(self, program: str) -> list[commanding.Site]:
        """What is done for each controller: the blocks of all others are others to it."""
        found = []
        for file, block in self.records:
            rest = [it for it in self.records if it[0] != file]
            records, others = [file, *(it for it, _ in rest)], [*self.others, *(it for _, it in rest)]
            found.append(commanding.Site(program, records, others, block, self.driver, self.seconds, self.title))
        return found


class Building(typing.NamedTuple):
    name: str
    entries: list[Entry]

    def chosen(self, names: list[str]) -> list[Entry]:
        """The buses of these names, or that lie in these parts of the building; all of them if none is named."""
        for name in names:
            if not any(is_in(it.name, name) for it in self.entries):
                raise command.BadWord(f"no bus of the building is called '{name}', or lies in it")
        return [it for it in self.entries if not names or any(is_in(it.name, name) for name in names)]


def is_in(name: str, part: str) -> bool:
    return name == part or name.startswith(f"{part}.")


class Table:
    """A table of the file. It raises what is wrong in it, with the line.

    lines  the line of each head and key: by the name of the table, its number among those of this name, and the key
    """

    def __init__(self, file: pathlib.Path, lines: dict[tuple[str, int, str], int], found: object, name: str = "", number: int = 0) -> None:
        self.file, self.lines, self.found, self.name, self.number = file, lines, found, name, number

    def wrong(self, key: str, reason: str) -> Wrong:
        asked = ((self.name, self.number, key), ("defaults", 0, key), (self.name, self.number, ""), ("", 0, self.name), (key, 0, ""))
        line = next((self.lines[it] for it in asked if it in self.lines), 1)
        return Wrong(f"{self.file}: line {line}: {key}: {reason}")

    def check_keys(self, known: tuple[str, ...]) -> None:
        if not isinstance(self.found, dict):
            raise self.wrong(self.name, "a table is wanted")
        for key in self.found:
            if key not in known:
                raise self.wrong(key, f"this is none of {', '.join(known)}")

    def text(self, key: str, other: str | None = None) -> str:
        """A text that is not empty."""
        value = self.found.get(key, other)
        if value is None:
            raise self.wrong(key, "it is missing")
        if not isinstance(value, str) or not value.strip() or not value.isprintable():
            raise self.wrong(key, "a text on one line is wanted")
        return value

    def block(self, key: str, value: object) -> str:
        try:
            return command.block_of(value if isinstance(value, str) else str(value))
        except argparse.ArgumentTypeError as why:
            raise self.wrong(key, str(why)) from why


def lines_of(text: str) -> dict[tuple[str, int, str], int]:
    """The line of each head and key of a file."""
    found, counts, now = {}, collections.Counter(), ("", 0)
    for number, line in enumerate(text.splitlines(), 1):
        if head := HEAD.fullmatch(line):
            now = (head[1], counts[head[1]])
            counts[head[1]] += 1
        key = "" if head else (KEY.match(line) or [None, None])[1]
        if key is not None:
            found.setdefault((*now, key), number)
    return found


def parsed(file: pathlib.Path) -> tuple[str, dict[str, typing.Any]]:
    """The text of a file, and what it has."""
    try:
        import tomllib
    except ModuleNotFoundError:
        raise Wrong("`building` wants Python 3.11 or later, to read its file") from None
    try:
        raw = file.read_bytes()
        text = raw.decode("utf-8-sig")
        for number, line in enumerate(text.splitlines(), 1):
            if '"""' in line or "'''" in line:
                raise Wrong(f"{file}: line {number}: a text stands on one line")
        return text, tomllib.loads(text)
    except tomllib.TOMLDecodeError as why:
        at = AT.search(str(why))
        line = at[1] if at and at[1] else len(text.splitlines())
        raise Wrong(f"{file}: line {line}: {AT.sub('', str(why))}") from why
    except UnicodeDecodeError as why:
        raise Wrong(f"{file}: line {raw[: why.start].count(10) + 1}: this is no UTF-8: save the file in this encoding") from why
    except OSError as why:
        raise Wrong(f"{file}: {why.strerror}") from why


def records_of(table: Table, block: str) -> list[tuple[str, str]]:
    """The files of the controllers of a bus, each with its block."""
    value = table.found.get("records")
    if isinstance(value, str):
        return [(table.text("records"), block)]
    if not isinstance(value, list) or not value:
        raise table.wrong("records", "a file is wanted, or a list as [{ file = \"one.db\", block = \"0-31\" }]")
    found = []
    for it in value:
        if not isinstance(it, dict) or sorted(it) != ["block", "file"] or not isinstance(it["file"], str) or not it["file"].strip():
            raise table.wrong("records", "each controller has a file and a block, as { file = \"one.db\", block = \"0-31\" }")
        found.append((it["file"], table.block("records", it["block"])))
    return found


def entry_of(table: Table, defaults: dict[str, typing.Any]) -> Entry:
    table.check_keys(BUS)
    table.found = defaults | table.found
    name, title, others = table.text("name"), table.text("driver"), table.found.get("others", [])
    if not NAME.fullmatch(name):
        raise table.wrong("name", "letters, digits, _ and - are wanted, with dots between parts, as school.ground.3")
    if not isinstance(others, list):
        raise table.wrong("others", "a list of blocks is wanted")
    records = records_of(table, table.block("block", table.found.get("block", "0-63")))
    others, taken = [table.block("others", it) for it in others], set()
    for key, block in [*(("records", it) for _, it in records), *(("others", it) for it in others)]:
        first, last = map(int, block.split("-"))
        if not taken.isdisjoint(range(first, last + 1)):
            raise table.wrong(key, f"the block {block} has an address of another block of this bus")
        taken |= set(range(first, last + 1))
    seconds = table.found.get("driver-timeout")
    try:
        driver = command.command_of([title])
        seconds = command.seconds_of([] if seconds is None else [str(seconds)])
    except command.BadWord as why:
        raise table.wrong("driver-timeout" if str(why).startswith("--driver-timeout") else "driver", str(why)) from why
    return Entry(name, driver, title, seconds, records, others)


def read(file: pathlib.Path) -> Building:
    """The building that a file describes. Nothing else is opened."""
    text, found = parsed(file)
    lines = lines_of(text)
    whole = Table(file, lines, found)
    whole.check_keys(WHOLE)
    name, defaults, them = whole.text("name"), found.get("defaults", {}), found.get("bus")
    Table(file, lines, defaults, "defaults").check_keys(DEFAULTS)
    if not isinstance(them, list) or not them:
        raise whole.wrong("bus", "at least one [[bus]] is wanted")
    entries, taken = [], {}
    for number, it in enumerate(them):
        table = Table(file, lines, it, "bus", number)
        entry = entry_of(table, defaults)
        kept = [("records", str(places.file_of(os.path.realpath(file.parent / one)))) for one, _ in entry.records]
        for key, value in [("name", entry.name), ("driver", shlex.join(shlex.split(entry.title))), *kept]:
            if (key, value) in taken:
                other = taken[key, value]
                raise table.wrong(key, f"its files would be those of the bus '{other}'" if key == "records" else f"it is that of the bus '{other}'")
            taken[key, value] = entry.name
        entries.append(entry)
    return Building(name, entries)


# The work, on each bus by the program and its driver, as processes of their own.

# How often it is looked how far all are, in seconds; and how often that is said if no terminal shows it.
LOOKS, SAYS = 0.5, 20
BAD_WORD, NO_RECORDS = 2, 5
# How often a bus is run that gives up: the next run goes on from its records.
TRIES = 3


def spoken(name: str, /, **parts: object) -> str:
    """A text in the language that is spoken."""
    return texts.text(name, standard.spoken, **parts)


class Taken(Exception):
    """The bus is not to be had: a page or a command has it, or its folder refuses the file of the lock."""


@contextlib.contextmanager
def alone(records: str) -> collections.abc.Iterator[int]:
    """Has a bus alone, by the file that a page locks, too. A command that inherits the descriptor has the bus until it has ended."""
    try:
        number = os.open(f"{records}.page", os.O_RDWR | os.O_CREAT, 0o600)
    except OSError as why:
        raise Taken(f"error: {os.path.abspath(records)}.page: {why.strerror}") from why
    try:
        fcntl.flock(number, fcntl.LOCK_EX | fcntl.LOCK_NB)
        yield number
    except BlockingIOError:
        raise Taken(f"error: {records}: a page, or another command of a building, uses this bus") from None
    finally:
        os.close(number)


class Job:
    """What is done on one bus, by each of its controllers in turn; a replacement and a clearing are of all of them at once.

    reports   what the program wrote of each, as an object
    statuses  what the end of each counts for
    said      the lines that were said last, if one did not end well
    """

    def __init__(self, entry: Entry, command: str, program: str, address: int | None = None, missing: typing.Sequence[int] = ()) -> None:
        self.entry, self.command, self.program, self.address, self.missing = entry, command, program, address, missing
        self.reports, self.statuses, self.said, self.rows = [], [], [], []
        self.bus, self.stopped = None, None

    def unknown(self) -> list[int]:
        """The short addresses of luminaires that are gone which no table has. A table that cannot be read is told when it is worked with."""
        site, *more = self.entry.sites(self.program)
        bus = commanding.Bus(site, (), more)
        bus.read_table()
        known = {it["address"] for it in bus.table}
        return [it for it in self.missing if it not in known and not bus.trouble]

    def do(self) -> None:
        """Does it. What goes wrong on this bus is a status of this bus."""
        try:
            if self.command == "table":
                self.read()
            else:
                with alone(self.entry.records[0][0]) as kept:
                    self.command_all(kept)
        except (Taken, places.Unreadable) as why:
            self.end(NO_RECORDS, [str(why)])
        except OSError as why:
            self.end(NO_RECORDS, [f"error: {why.filename or self.entry.name}: {why.strerror}"])

    def end(self, status: int, said: list[str]) -> None:
        self.statuses.append(status)
        self.said = said if status else self.said

    def command_all(self, kept: int) -> None:
        if self.stopped:
            self.end(commanding.STOPPED + self.stopped, ["not begun"])
            return
        site, *more = self.entry.sites(self.program)
        bus = self.bus = commanding.Bus(site, (kept,), more)
        if self.command == "replace":
            bus.read_table()
        for _ in range(TRIES if self.command == "run" else 1):
            bus.start(self.command, self.address, commanding.words_of(bus.site_of(self.command, self.address), self.command, self.address, self.missing))
            if self.stopped:
                bus.stop()
            bus.idle.wait()
            if self.stopped or bus.command.outcome() != commanding.GAVE_UP:
                break
        # The bus has its lock until it has learnt what came of it.
        with bus.lock:
            for it, status in zip((*bus.command.before, bus.command), bus.command.statuses()):
                self.reports.append(it.report)
                self.end(status, it.reason())
            if self.stopped and len(self.reports) <= len(more) and self.command in commanding.IN_TURN:
                self.end(commanding.STOPPED + self.stopped, ["stopped"])

    def stop(self, number: int) -> None:
        """Stops what goes on, since a signal came."""
        self.stopped = number
        if self.bus:
            self.bus.stop()

    def read(self) -> None:
        """Reads the tables of the controllers, as one."""
        rows = {}
        for file, _ in self.entry.records:
            words = [self.program, "table", "--json", "--records", file]
            done = subprocess.run(words, stdin=subprocess.DEVNULL, capture_output=True)
            self.end(done.returncode, done.stderr.decode(errors="replace").splitlines()[-1:])
            rows |= {it["address"]: it for it in json.loads(done.stdout)} if done.returncode == 0 else {}
        names = places.read(places.file_of(self.entry.records[0][0]))
        self.rows = places.rows([rows[it] for it in sorted(rows)], names)

    def status(self) -> int:
        return max(self.statuses, default=0)

    def far(self) -> list[str]:
        """How far it is, in a few words each."""
        if not (self.bus and self.bus.command):
            return [f"{self.entry.name}: {spoken('building:waits')}"]
        with self.bus.lock:
            command = self.bus.command
            first, *parts = command.followed().far(self.command, time.time() - command.begun, standard.spoken)
        return [f"{self.entry.name}: {first}", *parts]

    def came_to(self) -> str:
        """What it came to, in a line."""
        report = self.reports[-1] if self.reports else {}
        # The last of the worst ends, and of these one that counts for what it is.
        ends = [(status, one.get("status") == status, at, one["end"]) for at, (one, status) in enumerate(zip(self.reports, self.statuses)) if "end" in one]
        parts = [max(ends)[-1]] if ends else []
        # A run whose driver is gone reports no table.
        parts += [spoken("came:table", count=len(report["table"]))] if report.get("table") else []
        for key in ("left_alone", "missing", "strangers"):
            them = sorted({it["address"] if isinstance(it, dict) else it for one in self.reports for it in one.get(key, [])})
            parts += [spoken(f"came:{key}", list=" ".join(map(str, them)))] if them else []
        parts += [spoken("came:unaddressed")] if any(it.get("unaddressed") for it in self.reports) else []
        parts += [spoken("came:status", status=self.status())] if self.status() else []
        parts += map(standard.translated, self.said if self.status() not in commanding.WHOLE else [])
        return "; ".join(parts)


class View:
    """Shows how far all are: on a terminal a line each, over and over; else a line of each that has ended."""

    def __init__(self, jobs: list[Job]) -> None:
        self.jobs, self.below, self.told, self.looks = jobs, standard.Below(), set(), 0

    def summary(self, ended: set[Job]) -> list[str]:
        at_work = [it for it in self.jobs if it not in ended and it.bus]
        found = sum(it.bus.command.followed().found or 0 for it in at_work if it.bus.command)
        parts = [spoken("building:ended", ended=len(ended), count=len(self.jobs)), spoken("building:at-work", busy=len(at_work))]
        return parts + ([spoken("building:found-there", found=found)] if found else [])

    def show(self, ended: set[Job], is_last: bool = False) -> None:
        """Who has ended stays on the terminal, and below it is said how far the others are, as many as there is room for."""
        fresh = [it for it in self.jobs if it in ended and it not in self.told]
        self.told |= set(fresh)
        lines = [f"{it.entry.name}: {text}" for it in fresh if (text := it.came_to())]
        self.looks += 1
        if not self.below.is_able and not is_last and self.looks % int(SAYS / LOOKS) == 0:
            lines.append(", ".join(self.summary(ended)))
        going = [] if is_last else [far for it in self.jobs if it not in ended and it.bus and (far := it.far())]
        self.below.say("".join(f"{it}\n" for it in lines), [*going, self.summary(ended)] if going else [])


def work(jobs: list[Job], at_once: int, came: list[int]) -> None:
    """Does all jobs, so many at once. A signal that came stops those that go on, and begins no other."""
    view, ended, is_told = View(jobs), set(), False
    with concurrent.futures.ThreadPoolExecutor(at_once) as lanes:
        left = {lanes.submit(it.do): it for it in jobs}
        while left:
            done, _ = concurrent.futures.wait(left, LOOKS, concurrent.futures.FIRST_COMPLETED)
            for it in done:
                ended.add(left.pop(it))
                it.result()
            if came and not is_told:
                is_told = True
                for job in jobs:
                    job.stop(came[0])
            view.show(ended, not left)


# A night's check.


def there_of(reports: list[dict[str, typing.Any]], others: list[str]) -> tuple[dict[str, int], set[int]]:
    """Who answered to a check of all controllers, by random address, and the short addresses at which it is not clear who does. Addresses of
    these blocks were not asked. Random addresses are drawn, so two luminaires of a building may have one; on one bus they differ."""
    odd = {it["address"]: it["random"] if it["is"] in ("another", "stranger") else None for one in reports for it in one["strangers"]}
    gone = {*odd, *(it for one in reports for it in one["missing"])}
    gone |= commanding.addresses_in(others)
    there = {it["random"]: it["address"] for one in reports for it in one["table"] if it["address"] not in gone}
    return there | {random: at for at, random in odd.items() if random}, {at for at, random in odd.items() if not random}


def changes_of(job: Job, before: dict[str, int]) -> tuple[dict[str, int], list[dict[str, typing.Any]]]:
    """Who was there at a check, and what has changed on a bus since an earlier one."""
    there, unclear = there_of(job.reports, job.entry.others)
    # Who was at an address at which it is not clear who answers has not gone for sure.
    there |= {random: at for random, at in before.items() if at in unclear and random not in there}
    names, found = places.read(places.file_of(job.entry.records[0][0])), []
    for random in sorted(before.keys() | there.keys(), key=lambda it: (there.get(it, before.get(it)), it)):
        was, now = before.get(random), there.get(random)
        if was != now:
            what = "came" if was is None else "went" if now is None else "moved"
            it = {"bus": job.entry.name, "what": what, "address": was if now is None else now, "random": random, "place": names.get(random)}
            found.append(it | ({"from": was} if what == "moved" else {}))
    return there, found


# The command.


def missing_of(chosen: argparse.Namespace, entries: list[Entry]) -> dict[str, list[int]]:
    """The short addresses of luminaires that are known to be gone, by bus. For `replace` there is one bus."""
    found = {it.name: [] for it in entries}
    for word in chosen.missing:
        bus, _, address = word.rpartition(":") if chosen.task == "mend" else (entries[0].name, "", word)
        if bus not in found:
            raise command.BadWord(f"--missing {word}: BUS:ADDRESS is wanted, and BUS is to be mended")
        found[bus].append(command.address_of(address))
    return found


def jobs_of(chosen: argparse.Namespace, entries: list[Entry], program: str) -> list[Job]:
    """What is to be done. A luminaire that is known to be gone is in a table of its bus, or nothing is."""
    missing = missing_of(chosen, entries)
    jobs = [Job(it, chosen.task, program, chosen.address, missing[it.name]) for it in entries]
    for bus, address in ((job.entry.name, it) for job in jobs if chosen.task == "mend" and job.missing for it in job.unknown()):
        raise command.BadWord(f"--missing {bus}:{address}: the table of this bus has no such short address")
    return jobs


def read_since(file: str) -> dict[str, dict[str, int]]:
    """Who was there at earlier checks, by bus and random address. A file that is not there has none."""
    try:
        found = json.loads(pathlib.Path(file).read_text(encoding="utf-8"))
        is_well = all(places.RANDOM.fullmatch(random) and at in commanding.ADDRESSES for them in found.values() for random, at in them.items())
    except FileNotFoundError:
        return {}
    except (ValueError, AttributeError, TypeError, RecursionError) as why:
        raise places.Unreadable(f"{file} cannot be read: {why}") from why
    if not is_well:
        raise places.Unreadable(f"{file} has something else than an earlier check, and is left as it is")
    return found


def compare(jobs: list[Job], since: str) -> tuple[list[dict[str, typing.Any]] | None, int]:
    """What has changed since the earlier check, as far as that is known, and a status. The earlier check is made anew; a bus that could not be
    checked stays as it was."""
    changes = None
    try:
        before, found = read_since(since), []
        now = dict(before)
        for job in jobs:
            if all("strangers" in it for it in job.reports) and job.statuses and all(it in commanding.WHOLE for it in job.statuses):
                now[job.entry.name], them = changes_of(job, before.get(job.entry.name, {}))
                found += them if job.entry.name in before else []
        changes = found
        with places.alone(pathlib.Path(since).parent) as folder:
            places.write(pathlib.Path(since), now, folder)
    except OSError as why:
        standard.say(f"error: {why}")
        return changes, NO_RECORDS
    return changes, 0


def table_of(jobs: list[Job]) -> list[places.Row]:
    return [{"bus": job.entry.name, **row} for job in jobs for row in job.rows]


def told(change: dict[str, typing.Any]) -> str:
    """A line of what has changed."""
    before = f" from {change['from']}" if "from" in change else ""
    return f"{change['bus']} {change['address']} {change['random']} {change['what']}{before} {change['place'] or ''}".rstrip() + "\n"


def written(
    chosen: argparse.Namespace, building: Building, jobs: list[Job], changes: list[dict[str, typing.Any]] | None, status: int
) -> str:
    if chosen.csv:
        return places.as_csv(table_of(jobs), "bus", is_german=chosen.csv == command.GERMAN)
    if chosen.json:
        kinds = {"table": {"table": table_of(jobs)}, "check": {"changes": changes}}
        them = [{"bus": it.entry.name, "status": it.status(), "said": "; ".join(it.said) or None, "reports": it.reports} for it in jobs]
        return json.dumps({"building": building.name, "status": status, "buses": them, **kinds.get(chosen.task, {})}, ensure_ascii=False) + "\n"
    if chosen.task == "table":
        return "".join(f"{it['bus']} {line}\n" for it in table_of(jobs) for line in places.as_text([it]).splitlines())
    return "".join(map(told, changes or []))


def is_confirmed(building: Building, count: int) -> bool:
    """Whether so many buses are to be cleared: on a terminal that is typed."""
    if not os.isatty(0):
        raise command.BadWord("`clear` wants --yes, or a terminal on which it asks")
    wanted, buses = f"clear {count}", "1 bus" if count == 1 else f"{count} buses"
    standard.say(f"{building.name}: all gear on {buses} lose their short addresses. Type {wanted} to go on: ", "")
    return sys.stdin.readline().strip() == wanted


def serve(chosen: argparse.Namespace, building: Building, program: str) -> int:
    """Serves the page of the building. Each bus is had while a command works on it."""
    # No other command waits until what serves a page is loaded.
    from yolgibat import building_page, serving

    opened = serving.locked(pathlib.Path(f"{chosen.building.name}.page"))
    if not opened:
        return 0
    them = building_page.made(building, program)
    return serving.serve(lambda port, token: building_page.Server(building.name, them, port, token), opened, chosen.port, chosen.open)


def main(chosen: argparse.Namespace) -> int:
    if not chosen.building.is_file():
        what = "this is a folder, and a file is wanted" if chosen.building.is_dir() else "there is no such file"
        raise command.BadWord(f"--building {chosen.building}: {what}")
    # A link stands for the file where that lies.
    chosen.building = chosen.building.resolve()
    os.chdir(chosen.building.parent)
    building = read(pathlib.Path(chosen.building.name))
    entries = building.chosen(chosen.bus)
    if chosen.task == "replace" and len(entries) != 1:
        raise command.BadWord(f"'{chosen.bus[0]}' is more than one bus")
    if chosen.task == "clear" and not chosen.yes and not is_confirmed(building, len(entries)):
        standard.say("nothing was changed")
        return BAD_WORD
    program, status = programs.commission(chosen.program)
    if status:
        return status
    limits = resource.getrlimit(resource.RLIMIT_NOFILE)
    resource.setrlimit(resource.RLIMIT_NOFILE, (limits[1], limits[1]))
    if chosen.task == "page":
        return serve(chosen, building, program)
    jobs = jobs_of(chosen, entries, program)
    came, begun = [], time.monotonic()
    for number in joining.PASSED:
        if signal.getsignal(number) != signal.SIG_IGN:
            signal.signal(number, lambda number, _: came.append(number))
    work(jobs, chosen.at_once or len(jobs), came)
    changes, kept = compare(jobs, chosen.since) if chosen.since and not came else (None, 0)
    status = 128 + came[0] if came else max(kept, *(it.status() for it in jobs))
    well = sum(not it.status() for it in jobs)
    standard.say(spoken("building:ended-well", name=building.name, well=well, count=len(jobs), seconds=f"{time.monotonic() - begun:.0f}"))
    return standard.ended(written(chosen, building, jobs, changes, status), status)
