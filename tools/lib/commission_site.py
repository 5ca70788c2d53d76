"""A site of simulated gear, the program `dali_commission` over its drivers, and what is to hold of records and gear then."""

import argparse
import collections
import collections.abc
import concurrent.futures
import contextlib
import json
import os
import pathlib
import random
import re
import shutil
import signal
import sqlite3
import subprocess
import sys
import tempfile
import time
import types
import typing

from lib import ROOT, proving
from lib.harness import Checks
from lib.record_kinds import ENROL, KINDS, RELEASE, RESERVE

# The device for which adapters/tests/spi-bus stands.
PORT = "/dev/spidev0.0"
BETWEEN = ROOT / "tools/lib/commission_between.py"
# What joins a program and a driver as ./dali_commission does it, and builds nothing.
JOIN = "import json, sys; from yolgibat import joining; sys.exit(joining.join(*json.loads(sys.argv[1])))"
MASK24 = 0xFFFFFF
# The exit statuses of the program.
DONE, NOT_SO, DRIVER, STORE, BLOCK_FULL, GAVE_UP, NOBODY, KILLED = 0, 1, 4, 5, 6, 7, 10, -signal.SIGKILL
NOT_REPLACED, UNFINISHED, SHARED = 11, 12, 13
NOT_MENDED, NOT_CLEARED, UNCLEAR = NOT_REPLACED, 14, 15
# The first and the last short address.
ALL_SHORTS = (0, 63)
ENDS = {KILLED: "killed", DONE: "all-found", NOT_SO: "not begun", BLOCK_FULL: "block-full", GAVE_UP: "gave-up", SHARED: "shared", UNCLEAR: "unclear"}
TABLE = """CREATE TABLE record(seq INTEGER PRIMARY KEY, kind INTEGER NOT NULL,
address INTEGER NOT NULL CHECK(address BETWEEN 0 AND 63), random INTEGER NOT NULL CHECK(random BETWEEN 0 AND 16777214))"""
# How many seconds a run may take, and how much is said of what is wrong.
PATIENCE, LONGEST = 300, 1500
# A word of a command line. A row of the records, and what they keep: of each kind the short and random addresses.
Word = str | float | pathlib.Path
Row = tuple[int, int, int, int]
Kept = dict[int, list[tuple[int, int]]]


class Wrong(Exception):
    """What is wrong, where nothing more can be said of the site."""


class Ran(typing.NamedTuple):
    """How a run ended: its status, what it wrote and said, and how many lines it put."""

    status: int
    wrote: str
    said: str
    lines: int


class Place:
    """A folder for one test, with a file of gear. It is left where a check of it is wrong."""

    def __init__(self, checks: Checks, title: str, program: str, troubles: collections.abc.Sequence[str] = ()) -> None:
        self.checks, self.title, self.program, self.is_right = checks, title, program, True
        self.troubles = list(troubles)
        # What is set in the environment of the program.
        self.settings: dict[str, str] = {}
        self.folder = pathlib.Path(tempfile.mkdtemp(prefix="commission-sites."))
        self.gear_file, self.records = self.folder / "gear.json", self.folder / "records.db"
        self.left = []

    def __enter__(self) -> typing.Self:
        return self

    def __exit__(self, kind: type[BaseException] | None, why: BaseException | None, _: types.TracebackType | None) -> bool:
        for running in self.left:
            running.kill()
            running.wait()
        if why and isinstance(why, Exception):
            self.check("the test itself goes through", False, f"{kind.__name__}: {why}")
        if self.is_right:
            shutil.rmtree(self.folder)
        return isinstance(why, Exception)

    def check(self, name: str, is_so: bool, detail: object = "") -> bool:
        """The first check of a place that is wrong is a line, which says how the place is made again, and what it left."""
        self.checks.check(name, is_so)
        if not is_so and self.is_right:
            self.is_right = False
            print(f"wrong: {self.title}: {name}, see {self.folder}: {str(detail)[:LONGEST]}", flush=True)
        return is_so

    # The program and its driver.

    def simulated(self, *words: Word) -> list[str]:
        return [str(ROOT / "adapters/simulated"), str(self.gear_file), *map(str, words)]

    def sampled(self, *words: Word, device: str = PORT) -> list[str]:
        """The driver for a port that samples the bus, over the stand-in for it."""
        return [str(it) for it in (ROOT / "adapters/tests/spi-bus", *words, self.gear_file, ROOT / "adapters/spi", device)]

    def begin(
        self, words: collections.abc.Iterable[Word], driver: list[str], **plan: typing.Any
    ) -> tuple[subprocess.Popen[bytes], subprocess.Popen[bytes]]:
        """Starts the program with the words, and a driver behind it: both processes, and what the second one reports to."""
        report, said = self.folder / "report.json", self.folder / "said"
        report.unlink(missing_ok=True)
        plan |= {"driver": driver, "report": str(report)}
        from_program, to_between = os.pipe()
        from_between, to_program = os.pipe()
        ends = (from_program, to_between, from_between, to_program)
        try:
            with open(said, "w") as err, open(self.folder / "said-by-driver", "a") as other:
                how = {"stdin": from_between, "stdout": to_between, "stderr": err, "restore_signals": False, "env": os.environ | self.settings}
                program = self.started([self.program, *map(str, words)], **how)
                if plan.get("kill"):
                    plan["kill"].setdefault("pid", program.pid)
                call = [sys.executable, "-S", str(BETWEEN), json.dumps(plan)]
                between = self.started(call, stdin=from_program, stdout=to_program, stderr=other)
        finally:
            for it in ends:
                os.close(it)
        return program, between

    def started(self, words: list[str], **how: typing.Any) -> subprocess.Popen[typing.Any]:
        self.left.append(subprocess.Popen(words, **how))
        return self.left[-1]

    def ended(self, program: subprocess.Popen[bytes], between: subprocess.Popen[bytes]) -> Ran:
        """Waits for the end of both, the program last: so its number is not another process's while it may be killed."""
        try:
            between.wait(PATIENCE)
            program.wait(PATIENCE)
        except subprocess.TimeoutExpired as why:
            said = (self.folder / "said").read_text()[-400:]
            raise Wrong(f"it has not ended after {PATIENCE} seconds, and said {said!r}") from why
        self.left.remove(program)
        self.left.remove(between)
        report = json.loads((self.folder / "report.json").read_text())
        self.checks.count("frames", report["lines"])
        said = (self.folder / "said").read_text(errors="replace")
        if program.returncode == KILLED:
            self.checks.count("kills of the program")
        return Ran(program.returncode, "", said, report["lines"])

    def run(self, words: collections.abc.Iterable[Word], driver: list[str], **plan: typing.Any) -> Ran:
        return self.ended(*self.begin(words, driver, **plan))

    def shown(self, words: collections.abc.Iterable[Word], driver: list[str], after: float, number: int) -> Ran:
        """Runs the program by the launcher's relay, gently, and sends a signal after so many seconds."""
        both = [[str(self.program), *map(str, words)], driver, 10, True]
        call = [sys.executable, "-S", "-c", JOIN, json.dumps(both)]
        pipes = {"stdout": subprocess.PIPE, "stderr": subprocess.PIPE, "text": True}
        joined = self.started(call, cwd=ROOT, stdin=subprocess.DEVNULL, **pipes)
        time.sleep(after)
        joined.send_signal(number)
        wrote, said = joined.communicate(timeout=PATIENCE)
        self.left.remove(joined)
        return Ran(joined.returncode, wrote, said, 0)

    def joined(self, words: collections.abc.Iterable[Word], driver: list[str], seconds: float = 10, **plan: typing.Any) -> Ran:
        """Runs the program by the launcher's relay, which gives the driver so many seconds for an answer."""
        report = self.folder / "report.json"
        report.unlink(missing_ok=True)
        plan |= {"driver": driver, "report": str(report)}
        both = [[str(self.program), *map(str, words)], [sys.executable, "-S", str(BETWEEN), json.dumps(plan)], seconds]
        how = {"cwd": ROOT, "stdin": subprocess.DEVNULL, "capture_output": True, "text": True, "timeout": PATIENCE}
        done = subprocess.run([sys.executable, "-S", "-c", JOIN, json.dumps(both)], **how)
        frames = json.loads(report.read_text())["lines"]
        self.checks.count("frames", frames)
        return Ran(done.returncode, done.stdout, done.stderr, frames)

    def alone(self, *words: Word) -> Ran:
        """Runs the program without a driver."""
        done = subprocess.run([self.program, *map(str, words)], stdin=subprocess.DEVNULL, capture_output=True, timeout=60)
        return Ran(done.returncode, done.stdout.decode(), done.stderr.decode(), 0)

    # What gear and records are.

    def gear(self) -> list[tuple[int | None, int]]:
        """The short and the random address of each gear, the short one None where it has none."""
        rows = json.loads(self.gear_file.read_text())["gear"]
        return [(it["short_address"], int(it["random_address"], 16)) for it in rows]

    def write_gear(self, pairs: list[tuple[int | None, int]]) -> None:
        """A file of gear with these short and random addresses."""
        rows = [{"short_address": short, "random_address": f"{number:06X}", "level": 254} for short, number in pairs]
        self.gear_file.write_text(json.dumps({"last_drawn": "123456", "gear": rows}))

    def rows(self, records: pathlib.Path | None = None, in_place: bool = False) -> list[Row]:
        """The rows of the records, by SQLite over a copy, so that a log beside the file stays for the program; or over the
        file itself, in which SQLite then takes up the log."""
        records = records or self.records
        if not records.exists():
            return []
        with tempfile.TemporaryDirectory(dir=self.folder) as name:
            copy = records if in_place else pathlib.Path(name, "copy.db")
            for end in ("", "-wal") if not in_place else ():
                with contextlib.suppress(FileNotFoundError):
                    shutil.copyfile(f"{records}{end}", f"{copy}{end}")
            if is_unmade(copy):
                self.checks.count("files of records that were not made to the end, which SQLite does not read")
                return []
            return rows_of(copy)

    def check_rows(self, block: tuple[int, int], records: pathlib.Path | None = None, in_place: bool = False) -> Kept:
        """What the records keep; they are to be some that could have been committed."""
        rows = self.rows(records, in_place)
        kept, why = replayed(rows, block)
        self.check("the records are a list that could have been committed", not why, f"{why}: {rows}")
        return kept

    def check_gear(self, kept: Kept) -> None:
        """What holds of gear and records at any moment at which no program runs."""
        held = collections.defaultdict(list)
        for short, number in self.gear():
            if short is not None:
                held[short].append(number)
        twins = {short: numbers for short, numbers in held.items() if len(numbers) > 1}
        self.check("no two gear have one short address", not twins, twins)
        wrong = [pair for pair in kept[ENROL] if held[pair[0]] != [pair[1]]]
        self.check("each gear that is enrolled holds that short address", not wrong, wrong)

    def check_named(self, *kepts: Kept) -> None:
        """Each short address that a gear has stands in records, of the kind 1 or 2."""
        named = {pair for kept in kepts for pairs in kept.values() for pair in pairs}
        wrong = [pair for pair in self.gear() if pair[0] is not None and pair not in named]
        self.check("each short address of a gear has its record", not wrong, wrong)

    def check_table(self, kept: Kept, records: pathlib.Path | None = None) -> None:
        """What `table` prints in its three forms."""
        pairs = [(short, f"{number:06X}") for short, number in sorted(kept[ENROL])]
        objects = [{"address": short, "random": number} for short, number in pairs]
        wanted = {
            "": "".join(f"{short} {number}\n" for short, number in pairs),
            "--csv": "address,random\n" + "".join(f"{short},0x{number}\n" for short, number in pairs),
        }
        for form in ("", "--csv", "--json"):
            ran = self.alone("table", "--records", records or self.records, *filter(None, [form]))
            is_so = ran.status == DONE and not ran.said
            if form == "--json":
                with contextlib.suppress(ValueError):
                    is_so &= json.loads(ran.wrote) == objects
                is_so &= ran.wrote.startswith("[") and ran.wrote.endswith("\n]\n")
            else:
                # A program that was built before writes a random address in CSV without 0x.
                is_so &= re.sub(",(?=[0-9A-F]{6}\n)", ",0x", ran.wrote) == wanted[form]
            self.check(f"table {form or 'as text'} is what the file holds", is_so, ran)

    def check_copies(self, folder: pathlib.Path) -> None:
        """Each copy that was made at a PROGRAM SHORT ADDRESS has the reservation of its addresses."""
        for copy in folder.glob("*.db"):
            _, short, number = map(int, copy.stem.split("-"))
            kept, why = replayed(rows_of(copy), (0, 63))
            is_so = not why and (short, number) in kept[RESERVE]
            self.check("a reservation is in the file before its PROGRAM SHORT ADDRESS", is_so, f"{copy.name}: {why} {kept}")
        shutil.rmtree(folder)


def is_unmade(database: pathlib.Path) -> bool:
    """Whether the first page of a file was not written to its end: its first byte comes last."""
    raw = database.read_bytes()
    return 0 < len(raw) <= 4096 and raw[0] == 0


def rows_of(database: pathlib.Path) -> list[Row]:
    """The rows of a database, the kinds of its values, and whether it is sound."""
    connection = sqlite3.connect(database, isolation_level=None)
    try:
        whole = connection.execute("pragma integrity_check").fetchall()
        if whole != [("ok",)]:
            raise Wrong(f"the file is not sound: {whole}")
        made = connection.execute("select name, sql from sqlite_master").fetchall()
        if not made:
            return []
        if [(name, " ".join(sql.split()).replace("( ", "(")) for name, sql in made] != [("record", " ".join(TABLE.split()))]:
            raise Wrong(f"the table is another: {made}")
        kinds = connection.execute("select distinct typeof(kind), typeof(address), typeof(random) from record").fetchall()
        if kinds not in ([], [("integer", "integer", "integer")]):
            raise Wrong(f"values are no whole numbers: {kinds}")
        return connection.execute("select seq, kind, address, random from record order by seq").fetchall()
    except sqlite3.Error as why:
        raise Wrong(f"SQLite cannot read {database}: {why}") from why
    finally:
        connection.close()


def replayed(rows: list[Row], block: tuple[int, int]) -> tuple[Kept, str | None]:
    """What records keep, each kind a list of pairs, and why they are none that could have been committed, or None."""
    kept = {RESERVE: [], ENROL: []}
    for at, (seq, kind, short, number) in enumerate(rows, 1):
        pair = (short, number)
        if seq != at:
            return kept, f"a place is empty before {seq}"
        if kind not in KINDS.values() or not 0 <= short <= 63 or not 0 <= number < MASK24:
            return kept, f"{seq} is no record"
        if kind != ENROL and not block[0] <= short <= block[1]:
            return kept, f"{seq} lies outside of the block"
        if kind == RELEASE:
            if pair not in kept[RESERVE]:
                return kept, f"{seq} releases what is not reserved"
            kept[RESERVE].remove(pair)
        elif any(short == other[0] or number == other[1] for other in kept[kind]):
            return kept, f"{seq} stands twice"
        else:
            kept[kind].append(pair)
    return kept, None


# What the checks over many sites have in common.


def kill_at(count: int, byte: int | None = None, moment: str = "after", is_cut: bool = False, delay: float = 0) -> dict[str, typing.Any]:
    """A kill of the program at its count-th frame with this address byte, or with any (commission_between says when)."""
    return {"byte": byte, "count": count, "moment": moment, "is_cut": is_cut, "delay": delay}


def drawn_kill(chance: random.Random, most: int, few: int, address_bytes: collections.abc.Sequence[int | None]) -> dict[str, typing.Any]:
    """A kill at random: at one of so many frames, or of so few with one of these address bytes."""
    moment, byte = chance.choice(["before", "unheard", "after"]), chance.choice(address_bytes)
    return kill_at(chance.randint(1, most if byte is None else few), byte, moment, delay=10 ** chance.uniform(-5, -2))


def options_of(text: str, parts: list[str], sites: int = 20) -> argparse.ArgumentParser:
    """The words of a check that has these parts, and tries so many sites if nothing is said."""
    options = argparse.ArgumentParser(description=text)
    options.add_argument("--program", metavar="PATH", help="another program")
    options.add_argument("--part", action="append", choices=parts, help="this part alone; may be given again")
    options.add_argument("--sites", type=int, default=sites, metavar="N", help="how many sites")
    options.add_argument("--seed", type=int, metavar="S", help="the seed of the first site")
    options.add_argument("--jobs", type=int, default=len(os.sched_getaffinity(0)), metavar="N", help="so many side by side")
    return options


def chosen_of(options: argparse.ArgumentParser, parts: list[str]) -> argparse.Namespace:
    """What is chosen; these parts if none is. The program is there."""
    chosen = options.parse_args()
    chosen.part = chosen.part or parts
    chosen.seed = random.randrange(10**6) if chosen.seed is None else chosen.seed
    chosen.program = os.path.abspath(chosen.program or proving.built("dali_commission"))
    return chosen


def tests_of(check: str, chosen: argparse.Namespace, by_seed: dict[str, tuple[typing.Any, int]], once: dict[str, tuple[typing.Any, ...]]) -> list[tuple[typing.Any, ...]]:
    """The tests of the parts that are chosen, each with its title, its function and its seed: of some parts so many from the seed on, of others each once."""
    found = []
    for part, (function, count) in by_seed.items():
        for seed in range(chosen.seed, chosen.seed + (count if part in chosen.part else 0)):
            found.append((f"tools/check/{check} --part {part} --sites 1 --seed {seed}", function, seed))
    for part, functions in once.items():
        for function in functions if part in chosen.part else ():
            found.append((f"tools/check/{check} --part {part} --seed {chosen.seed}: {function.__name__}", function, chosen.seed))
    return found


def try_all(chosen: argparse.Namespace, tests: list[tuple[typing.Any, ...]], troubles: collections.abc.Sequence[str] = ()) -> typing.NoReturn:
    """Makes these tests side by side, each with its title, its function, and what that takes beside its place. Says what was right, and ends."""
    checks, begun = Checks("names"), time.monotonic()

    def run(title: str, function: collections.abc.Callable[..., None], *more: object) -> None:
        with Place(checks, title, chosen.program, troubles) as place:
            function(place, *more)

    with concurrent.futures.ThreadPoolExecutor(chosen.jobs) as pool:
        for done in [pool.submit(run, *it) for it in tests]:
            done.result()
    print(f"{len(tests)} tests from seed {chosen.seed}, {round(time.monotonic() - begun)} seconds, {chosen.jobs} side by side")
    raise SystemExit(checks.end())
