"""What may go wrong around the program `dali_commission`: with its records, its driver, its disk, and by signals."""

import contextlib
import json
import os
import pathlib
import random
import re
import resource
import shutil
import signal
import sqlite3
import subprocess
import sys
import time
import typing

from lib.commission_site import DONE, DRIVER, ENROL, GAVE_UP, NOBODY, RESERVE, STORE, Kept, Place, Ran, Word, kill_at

ALL = (0, 63)
# Six gear: a run that finds them all in its table has at least so many lines.
GEAR, LEAST = 6, 3 * (3 * (64 - 6) + 17)
LOCKED = "another program has the file open"
FOREIGN = "it is no file of records, and is left as it is\n"
LINKED = "it has a second name, a hard link, or is no file: make a copy and name that\n"
CLOSED = "nothing can be made in its folder, and its log has to lie there\n"
NEWER = "a later version of Yolgibat wrote it, or another program, and it is left as it is\n"
# What a driver may tell that is none of its answers, each with what the program says of it.
BAD = {
    "bad line": [
        b"hello\n", b"\n", b"byte 1\n", b"byte 1G\n", b"byte FFF\n", b"byte FF FF\n", b"BYTE FF\n", b"Silence\n",
        b"silence \n", b"silence\r\n", b" silence\n", b"silence\0\n", b"\xff\xfe\n", b"0123456789012345\n", b"byte +1\n",
        b"byte  1\n", b"yes\n",
    ],
    "line too long": [b"01234567890123456\n", b"silence" + 60 * b" " + b"\n", 20 * b"silence", 4000 * b"\0"],
    "line without line feed": [b"s", b"silence", b"byte FF", b"0123456789012345", b"\r"],
    "end of input": [b""],
}


def run_words(place: Place, *more: Word, block: str = "0-63") -> list[Word]:
    return ["run", "--records", place.records, *more, block]


def check_sound(place: Place, block: tuple[int, int] = ALL) -> Kept:
    """What holds at any moment. What the records keep."""
    kept = place.check_rows(block)
    place.check_gear(kept)
    place.check_named(kept)
    return kept


def check_goes_on(place: Place, name: str, *words: Word) -> None:
    """The next run goes on to the end, and its records begin with those that were there."""
    rows = place.rows()
    ran = place.run(run_words(place), place.simulated(*words))
    files = [it.name for it in place.records.parent.glob(f"{place.records.name}*")]
    place.check("a run that ended leaves one file", files == [place.records.name], files)
    is_so = ran.status == DONE and place.rows()[: len(rows)] == rows
    place.check(f"after {name} the next run goes on to the end", is_so, ran)
    kept = check_sound(place)
    place.check(f"after {name} all gear are in the table", len(kept[ENROL]) == len(place.gear()), kept)


def check_store(place: Place, name: str, ran: Ran, said: str, is_written: bool = False) -> None:
    """The program ended since the records are not to be had, and said so; before any line for the driver, or later."""
    right = ran.status == STORE and said in ran.said and (is_written or not ran.lines and not ran.wrote)
    place.check(f"{name} ends with status 5, and is named", right, ran)


def count_end(place: Place, name: str, ran: Ran) -> None:
    last = (ran.said.splitlines() or ["nothing"])[-1]
    place.checks.count(f"runs {name}: status {ran.status}, {re.sub('[0-9]+', 'N', last)}")


# Records.


def locked(place: Place, chance: random.Random) -> None:
    words, driver = run_words(place), place.simulated("--gear", 4)
    program, between = place.begin(words, driver, fault={"at": chance.randint(1, 9), "kind": "mute", "text": ""})
    for _ in range(500):
        if place.records.exists():
            break
        time.sleep(0.01)
    time.sleep(0.5)
    raw = place.records.read_bytes()
    check_store(place, "run of records that another run has", place.alone(*words), LOCKED)
    ran = place.alone("table", "--records", place.records)
    place.check("table reads records that another run has", ran.status == DONE, ran)
    place.check("records that are locked stay as they are", place.records.read_bytes() == raw)
    place.check("the run that has them waits", program.poll() is None)
    program.kill()
    between.kill()
    for it in (program, between):
        it.wait()
        place.left.remove(it)
    check_goes_on(place, "a driver that never answers")
    with contextlib.closing(sqlite3.connect(place.records, isolation_level=None)) as other:
        other.execute("begin exclusive")
        check_store(place, "run of records that SQLite has locked", place.alone(*words), LOCKED)
        ran = place.alone("table", "--records", place.records)
        place.check("table reads records that SQLite has locked", ran.status == DONE, ran)


def missing(place: Place, _chance: random.Random) -> None:
    records, nowhere = place.folder / "missing.db", place.folder / "no folder/records.db"
    for words in (["table"], ["check"], ["table", "--csv"], ["table", "--json"]):
        for path in (records, nowhere):
            ran = place.alone(*words, "--records", path)
            check_store(place, f"{words[0]} of records that are missing", ran, "there is no such file of records\n")
    place.check("none are made then", not list(place.folder.glob("missing*")), list(place.folder.iterdir()))
    ran = place.alone("run", "--records", nowhere, "0-63")
    check_store(place, "a run whose records are in no folder", ran, "its folder is not there\n")
    ran = place.alone("run", "--records", place.folder, "0-63")
    check_store(place, "a run whose records are a folder", ran, FOREIGN)


def closed(place: Place, _chance: random.Random) -> None:
    """Records with a second name, and records in a folder in which nothing can be made."""
    check_goes_on(place, "nothing", "--gear", 3)
    second = place.folder / "second.db"
    second.hardlink_to(place.records)
    check_store(place, "a run whose records have a hard link", place.alone(*run_words(place)), LINKED)
    second.unlink()
    folder, program = place.folder / "closed", place.folder / "program"
    folder.mkdir()
    shutil.copy(place.program, program)
    records = shutil.copy(place.records, folder)
    for path, mode in ((place.folder, 0o755), (program, 0o755), (pathlib.Path(records), 0o666), (folder, 0o555)):
        path.chmod(mode)
    # Root makes files in any folder.
    user = 65534 if os.geteuid() == 0 else os.geteuid()
    words = [program, "run", "--records", records, "0-63"]
    done = subprocess.run(words, stdin=subprocess.DEVNULL, capture_output=True, timeout=60, user=user)
    ran = Ran(done.returncode, done.stdout.decode(), done.stderr.decode(), 0)
    check_store(place, "a run whose folder is closed", ran, CLOSED)


# What makes a database of each kind that is none of records, or no file of SQLite at all.
TABLE = """CREATE TABLE record(
  seq INTEGER PRIMARY KEY,
  kind INTEGER NOT NULL,
  address INTEGER NOT NULL CHECK(address BETWEEN 0 AND 63),
  random INTEGER NOT NULL CHECK(random BETWEEN 0 AND 16777214))"""
STRANGERS: dict[str, bytes | tuple[str, ...]] = {
    "a text": b"5 123456\n" * 20,
    "a database without a log": ("create table note(id integer primary key)",),
    "a database without a log that has a table of records": (TABLE,),
    "a database with a log": ("pragma journal_mode = wal", "create table note(id integer primary key)"),
    "records beside another table": ("pragma journal_mode = wal", TABLE, "create table note(id integer primary key)"),
    "records with an index": ("pragma journal_mode = wal", TABLE, "create index i on record(kind)"),
    "records with a trigger": (
        "pragma journal_mode = wal", TABLE, "create trigger t after insert on record begin select 1; end",
    ),
    "records of another form": ("pragma journal_mode = wal", "create table record(seq integer primary key, kind, address, random)"),
    "records of a later version": ("pragma journal_mode = wal", TABLE, "pragma user_version = 99"),
}


def made(path: pathlib.Path, what: bytes | tuple[str, ...]) -> None:
    """A file of somebody else's: bytes, or a database by its statements. A program that is killed leaves its log."""
    if isinstance(what, bytes):
        path.write_bytes(what)
        return
    text = f"import os, sqlite3\nc = sqlite3.connect({str(path)!r}, isolation_level=None)\n"
    text += "".join(f"c.execute({it!r})\n" for it in what) + "os._exit(0)\n"
    subprocess.run([sys.executable, "-c", text], check=True)


def foreign(place: Place, _chance: random.Random) -> None:
    """Files of somebody else are refused by name, and not one byte of them is changed."""
    for name, what in STRANGERS.items():
        folder = place.folder / "foreign"
        folder.mkdir()
        made(folder / "site.db", what)
        before = {it.name: it.read_bytes() for it in folder.iterdir()}
        for words in (["run", "0-63"], ["check"], ["table"]):
            ran = place.alone(words[0], "--records", folder / "site.db", *words[1:])
            check_store(place, f"{words[0]} over {name}", ran, f"site.db: {NEWER if 'later' in name else FOREIGN}")
            now = {it.name: it.read_bytes() for it in folder.iterdir()}
            place.check(f"{name} stays as it is after {words[0]}", now == before, [*now])
        shutil.rmtree(folder)


@contextlib.contextmanager
def small_disk(folder: pathlib.Path, size: str) -> typing.Iterator[bool]:
    """A disk of this size in the memory. Whether it can be had."""
    folder.mkdir()
    mount = ["mount", "-t", "tmpfs", "-o", f"size={size}", "none", folder]
    done = subprocess.run(mount, capture_output=True, text=True)
    if done.returncode:
        why = " ".join(done.stderr.split())
        print(f"not checked: a small disk; it needs root, and leave to mount: {why}", flush=True)
        yield False
        return
    try:
        yield True
    finally:
        subprocess.run(["umount", folder])


def read_only(place: Place, _chance: random.Random) -> None:
    """Records on a disk that cannot be written are read, and no run begins over them."""
    folder = place.folder / "disk"
    with small_disk(folder, "4m") as is_there:
        if not is_there:
            return
        place.records = folder / "records.db"
        check_goes_on(place, "nothing", "--gear", 3)
        subprocess.run(["mount", "-o", "remount,ro", folder], check=True)
        rows = place.rows(in_place=False)
        ran = place.alone("table", "--records", place.records)
        place.check("a table is read on a disk that cannot be written", ran.status == DONE and len(ran.wrote.split()) == 6, ran)
        ran = place.run(["check", "--records", place.records], place.simulated())
        place.check("records on a disk that cannot be written are checked", ran.status == DONE, ran)
        check_store(place, "a run on a disk that cannot be written", place.alone(*run_words(place)), "its disk cannot be written\n")
        place.check("records on such a disk stay as they are", place.rows(in_place=False) == rows, rows)


def dead_bus(place: Place, _chance: random.Random) -> None:
    """A bus on which nobody answers is told, whatever is asked of it, and also where the table has gear."""
    records, said = place.folder / "dead.db", "no gear answered: is the interface connected, is the bus powered?\n"
    place.write_gear([])
    for words in (["run", "--records", records, "0-63"], ["check", "--records", records], ["check"]):
        ran = place.run(words, place.simulated())
        place.check(f"a bus without gear is told by {words[0]}", ran.status == NOBODY and ran.said.endswith(said), ran)
    ran = place.run(["identify", 5], place.simulated())
    is_told = ran.status == NOBODY and ran.said == "no gear answers at short address 5\n"
    place.check("an address without gear is told by identify", is_told, ran)
    place.gear_file.unlink()
    check_goes_on(place, "a dead bus", "--gear", 3)
    gear = place.gear()
    place.write_gear([])
    ran = place.run(run_words(place), place.simulated())
    place.check("a dead bus is told where the table has gear", ran.status == NOBODY and ran.said.endswith(said), ran)
    place.write_gear(gear)
    check_goes_on(place, "the bus is powered again")


def spoilt(place: Place, chance: random.Random) -> None:
    """Records that are none, or that could not have been committed: they are refused, and stay as they are."""
    check_goes_on(place, "nothing", "--gear", 3)
    rows = place.rows(in_place=True)
    good, insert, last = place.records.read_bytes(), "insert into record values (?, ?, ?, ?)", len(rows)
    changes = {
        "a gap": ("delete from record where seq = 2", ()),
        "a row too far": (insert, (last + 2, 1, 60, 60)),
        "a kind that is none": (insert, (last + 1, 4, 60, 60)),
        "an enrolment twice": (insert, (last + 1, 2, rows[0][2], 60)),
        "a number twice": (insert, (last + 1, 1, 60, rows[0][3])),
        "a release of nothing": (insert, (last + 1, 3, 60, 60)),
        "a text": (insert, (last + 1, 1, 60, "sixty")),
        "another table": ("alter table record rename to records", ()),
        "a column less": ("alter table record drop column kind", ()),
        "a column more": ("alter table record add column more", ()),
    }
    spoils = {
        "no file of SQLite": b"These are no records.\n" * 100,
        "half a file": good[: len(good) // 2],
        "a page of noise": good[:-2000] + chance.randbytes(2000),
    }
    log = pathlib.Path(f"{place.records}-wal")
    for name in [*changes, *spoils]:
        log.unlink(missing_ok=True)
        place.records.write_bytes(spoils.get(name, good))
        for form, values in [changes[name]] if name in changes else []:
            with contextlib.closing(sqlite3.connect(place.records, isolation_level=None)) as other:
                other.execute("pragma ignore_check_constraints = on")
                other.execute(form, values)
        raw, gear = place.records.read_bytes(), place.gear_file.read_bytes()
        ran = place.run(run_words(place), place.simulated())
        place.check(f"records with {name} are refused by run", ran.status == STORE and not ran.lines, ran)
        ran = place.alone("table", "--records", place.records)
        place.check(f"records with {name} are refused by table", ran.status == STORE and not ran.wrote, ran)
        unchanged = place.records.read_bytes() == raw and place.gear_file.read_bytes() == gear
        place.check("records that are refused stay as they are", unchanged, name)
    place.records.write_bytes(good)
    check_goes_on(place, "the file is put back")


def blocks(place: Place, chance: random.Random) -> None:
    count = chance.randint(3, 9)
    ran = place.run(run_words(place, block=f"0-{count - 1}"), place.simulated("--gear", count))
    place.check("a block with an address for each gear is enough", ran.status == DONE, ran)
    rows, unchanged = place.rows(), place.gear_file.read_bytes()
    order = [row[2] for row in rows if row[1] == RESERVE]
    for first, last in ((0, count - 2), (1, count - 1), (count, 63), (0, 0)):
        out = next(it for it in order if not first <= it <= last)
        ran = place.run(run_words(place, block=f"{first}-{last}"), place.simulated())
        said = f"error: short address {out} is reserved, and lies outside of the block\n"
        check_store(place, "a block without an address that is reserved", ran, said)
    is_so = place.rows() == rows and place.gear_file.read_bytes() == unchanged
    place.check("a block that is refused changes nothing", is_so)
    place.write_gear([*place.gear(), (None, 0xFFFFFF)])
    check_goes_on(place, "a larger block is given")


# The disk.


# So many gear take more than one part of the log, 256 KiB, that the program asks the disk for.
MANY = 40
# How many pages of 4 KiB a disk has left, or a file may have.
ROOMS = (0, 1, 2, 3, 16, 40, *range(63, 69), 70, 72, 80, 100, 120, *range(127, 135), 136, 140, 150)


def filled(folder: pathlib.Path, room: int) -> None:
    """A small disk with so many bytes left."""
    with open(folder / "filler", "wb") as filler:
        free = os.statvfs(folder).f_bavail * os.statvfs(folder).f_frsize
        filler.write(bytes(max(free - room, 0)))


def full_disk(place: Place, chance: random.Random) -> None:
    """Runs over disks with less and less room that are full at some moment, and that have room again."""
    folder = place.folder / "disk"
    with small_disk(folder, "4m") as is_there:
        for pages in ROOMS if is_there else ():
            room = 4096 * pages
            place.records = folder / f"{room}.db"
            place.gear_file.unlink(missing_ok=True)
            kill = kill_at(chance.randint(1, 3), 0xAB, "before", is_cut=True)
            if chance.random() < 0.5:
                place.run(run_words(place), place.simulated("--gear", MANY), kill=kill)
            rows = place.rows()
            filled(folder, room)
            ran = place.run(run_words(place), place.simulated("--gear", MANY))
            count_end(place, "over a full disk", ran)
            is_so = ran.status in (DONE, STORE)
            place.check("a full disk ends a run with status 5, or it had room", is_so, f"{room}: {ran}")
            (folder / "filler").unlink()
            place.check("a full disk loses no row", place.rows()[: len(rows)] == rows, f"{room}: {rows}")
            check_sound(place)
            check_goes_on(place, "a full disk", "--gear", MANY)
            for it in folder.iterdir():
                it.unlink()


def longest_file(place: Place, chance: random.Random) -> None:
    """A limit of the length of files, which a write meets at some moment."""
    for most in (1, *(4096 * pages + chance.randint(0, 200) for pages in chance.sample(ROOMS, 12))):
        place.gear_file.unlink(missing_ok=True)
        program, between = place.begin(run_words(place, "--quiet"), place.simulated("--gear", MANY))
        resource.prlimit(program.pid, resource.RLIMIT_FSIZE, (most, most))
        ran = place.ended(program, between)
        count_end(place, "with a limit of files", ran)
        is_so = ran.status in (DONE, STORE)
        place.check("a limit of files ends a run with status 5, or it had room", is_so, f"{most}: {ran}")
        check_sound(place)
        check_goes_on(place, "a limit of files", "--gear", MANY)
        for end in ("", "-wal"):
            pathlib.Path(f"{place.records}{end}").unlink(missing_ok=True)


def opening(place: Place, chance: random.Random) -> None:
    """The program is killed within its first milliseconds, when it opens its records: new ones, or some with a log."""
    for turn in range(60):
        if turn % 3 == 0:
            place.run(run_words(place), place.simulated("--gear", 30), kill=kill_at(1, 0xAB, "before", is_cut=True))
        rows = place.rows()
        program, between = place.begin(run_words(place), place.simulated("--gear", 30))
        time.sleep(chance.uniform(0, 0.01))
        program.kill()
        place.ended(program, between)
        place.check("a program that is killed when it opens its records loses none", place.rows() == rows, rows)
    check_sound(place)
    check_goes_on(place, "kills at the opening")


# The driver.


def check_driver_fault(place: Place, at: int, fault: dict[str, str], said: str) -> None:
    rows = place.rows()
    ran = place.run(run_words(place), place.simulated("--gear", GEAR), fault={"at": at, **fault})
    right = ran.status == DRIVER and ran.said.endswith(f"error: line {at} of the driver: {said}\n")
    place.check(f"a driver's fault ends with status 4, and is named: {said}", right, f"{fault} at {at}: {ran}")
    place.check("a driver's fault loses no row", place.rows()[: len(rows)] == rows, rows)
    check_sound(place)


def bad_lines(place: Place, chance: random.Random) -> None:
    for said, texts in BAD.items():
        for text in texts:
            fault = {"kind": "ends", "text": text.hex()}
            check_driver_fault(place, chance.choice([1, 2, 3, chance.randint(4, LEAST)]), fault, said)
    fault = {"kind": "goes on", "text": b"silent\nsilence\n".hex()}
    check_driver_fault(place, chance.randint(1, LEAST - 1), fault, "bad line")
    check_goes_on(place, "bad lines")


def dies(place: Place, chance: random.Random) -> None:
    for _ in range(25):
        check_driver_fault(place, chance.randint(1, LEAST), {"kind": "ends", "text": ""}, "end of input")
    check_goes_on(place, "drivers that died")


def closes(place: Place, chance: random.Random) -> None:
    """The driver reads no more: the program cannot write its next line, or reads the end of the driver's answers."""
    for _ in range(3):
        at = chance.randint(1, LEAST - 1)
        fault = {"at": at, "kind": "closed", "text": b"silence\n".hex()}
        ran = place.run(run_words(place), place.simulated("--gear", GEAR), fault=fault)
        right = ran.status == DRIVER and ran.said.endswith(f"error: line {at} of the driver: the output cannot be written\n")
        place.check("a driver that reads no more ends with status 4, and is named", right, f"at {at}: {ran}")
        check_sound(place)
    check_goes_on(place, "drivers that read no more")


def slow(place: Place, _chance: random.Random) -> None:
    words = run_words(place, "--others", "4-63", "--idle-passes", "1", block="0-3")
    ran = place.run(words, place.simulated("--gear", 1, "--slow", 0.005))
    place.check("a slow driver is waited for", ran.status == DONE, ran)
    check_sound(place)


# The launcher's relay.


# A run of few frames over one gear.
SHORT = {"words": ("--others", "4-63", "--idle-passes", "1"), "block": "0-3"}


def short_run(place: Place, **more: typing.Any) -> Ran:
    """A run of few frames through the relay, over a new gear, with new records."""
    for file in place.folder.glob("records.db*"):
        file.unlink()
    place.write_gear([(None, 0xFFFFFF)])
    words = run_words(place, *SHORT["words"], block=SHORT["block"])
    return place.joined(words, place.simulated(), **more)


def check_relay(place: Place, name: str, ran: Ran, said: str) -> None:
    """The launcher ended a run since the driver was at fault, and said how. The next run goes on."""
    last = (ran.said.splitlines() or [""])[-1]
    is_right = ran.status == DRIVER and re.search(f": {said}$", last) is not None
    place.check(f"{name} ends with status 4, and the last line says so", is_right, ran)
    check_sound(place, (0, 3))


def too_many(place: Place, kind: str, where: str | None, text: bytes) -> None:
    """A driver that writes a line too many at each frame of a short run, beside the answer or ahead of it."""
    count = short_run(place).lines
    for at in range(1, count + 1):
        ran = short_run(place, fault={"at": at, "kind": kind.split()[0], "text": text.hex()})
        said = f"the driver wrote a line that was not asked for, after frame {where or at}: '.*'"
        check_relay(place, f"a line too many, {kind}", ran, said)
        place.checks.count(f"frames at which a line too many came, {kind}")
    check_goes_on(place, "lines too many")


def lines_beside(place: Place, chance: random.Random) -> None:
    too_many(place, "beside an answer", None, chance.choice([b"silence\n", b"byte FF\n", b"\n", b"damaged"]))


def silence_ahead(place: Place, _chance: random.Random) -> None:
    """The line is taken for the answer, and each answer for that of the next frame, until one is left over."""
    too_many(place, "ahead of an answer", r"\d+", b"silence\n")


def byte_ahead(place: Place, _chance: random.Random) -> None:
    too_many(place, "ahead of an answer", r"\d+", b"byte FF\n")


def stalls(place: Place, chance: random.Random) -> None:
    """A driver that does not answer, at any frame of a short run."""
    count = short_run(place).lines
    for at in (1, *sorted(chance.sample(range(2, count + 1), 7))):
        for text in (b"", b"sil"):
            ran = short_run(place, seconds=1, fault={"at": at, "kind": "stalls", "text": text.hex()})
            check_relay(place, "a driver that stalls", ran, f"the driver did not answer frame {at} in 1 second")
            is_right = ("the driver wrote 'sil'\n" in ran.said) == bool(text)
            place.check("what a driver that stalls has begun to answer is said", is_right, ran)
    check_goes_on(place, "drivers that stalled")


def shows(place: Place, chance: random.Random) -> None:
    """A luminaire that is shown is bright in the end, whenever that is stopped."""
    place.write_gear([(5, 0x123456)])
    for number in (signal.SIGINT, signal.SIGTERM, signal.SIGHUP) * 2:
        for slow in (0, 0.3):
            driver = place.simulated("--slow", slow)
            ran = place.shown(["identify", 5], driver, chance.uniform(0.5, 8), number)
            (gear,) = json.loads(place.gear_file.read_text())["gear"]
            is_right = ran.status == 128 + number and gear["level"] == 254
            place.check("a luminaire that was shown is bright in the end", is_right, f"{ran} {gear}")


def gives_up(place: Place, _chance: random.Random) -> None:
    """A bus on which nothing is sent, or all is destroyed."""
    for trouble in ("--lapse", "--destroy"):
        ran = place.run(run_words(place), place.simulated("--gear", 3, trouble, 1))
        place.check("a bus on which no frame comes through is given up", ran.status == GAVE_UP and not place.rows(), ran)
    ran = place.run(run_words(place), place.simulated("--lose", 1))
    place.check("a bus on which no answer is heard is told as dead", ran.status == NOBODY and not place.rows(), ran)
    check_goes_on(place, "a bus is mended")


# Signals, and output that goes nowhere.


def signals(place: Place, chance: random.Random) -> None:
    for number in (signal.SIGTERM, signal.SIGHUP, signal.SIGINT, signal.SIGTERM, signal.SIGTERM):
        program, between = place.begin(run_words(place), place.simulated("--gear", 40, "--slow", 0.002))
        time.sleep(chance.uniform(0.05, 1.5))
        program.send_signal(number)
        ran = place.ended(program, between)
        place.check("a signal ends a run", ran.status == -number, ran)
        check_sound(place)
    check_goes_on(place, "signals")


def no_output(place: Place, _chance: random.Random) -> None:
    check_goes_on(place, "nothing", "--gear", 2)
    with open("/dev/full", "w") as full:
        how = {"stdin": subprocess.DEVNULL, "timeout": 60}
        table, check = (["table", "--records", place.records], ["check", "--records", place.records])
        for words, status in ((table, 3), (["--help"], 3), (check, 4)):
            done = subprocess.run([place.program, *words], stdout=full, stderr=subprocess.PIPE, **how)
            place.check(f"{words[0]} without output ends with status {status}", done.returncode == status, done)
        none = ["table", "--records", place.folder / "missing.db"]
        done = subprocess.run([place.program, *none], stdout=subprocess.PIPE, stderr=full, **how)
        place.check("where nothing can be said the status is the same", done.returncode == STORE, done)


FAULTS = (
    full_disk, lines_beside, silence_ahead, byte_ahead, bad_lines, longest_file, opening, signals, dies, spoilt, closes, locked,
    shows, stalls, missing, closed, foreign, read_only, dead_bus, blocks, slow, gives_up, no_output,
)
