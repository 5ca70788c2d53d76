"""What tools/check/places tries of serial numbers: how they are read over simulated gear, kept and said."""

import csv
import io
import json
import pathlib
import subprocess

from lib import ROOT
from lib.harness import Checks
from lib.page_stubs import GEAR, Page, Room
from yolgibat import places, serials

# Two serial numbers that differ in one byte, and what is read of the first one.
FIRST, OTHER = (4012345678901, 0x0123456789ABCDEF), (4012345678901, 0x0123456789ABCDEE)
KNOWN = {"gtin": FIRST[0], "identification": f"{FIRST[1]:016X}"}
TEXT = f"GTIN {FIRST[0]}, identification number {FIRST[1]:016X}"
Row = tuple[int, str, tuple[int, int] | None]


def lit(file: pathlib.Path, *rows: Row) -> pathlib.Path:
    """A file of simulated gear, each with short address, random address, and its GTIN and identification number, or None if it has none."""
    them = [{"short_address": short, "random_address": random, "level": 254} for short, random, _ in rows]
    for it, (_, _, serial) in zip(them, rows):
        it |= {"gtin": serial[0], "identification": f"{serial[1]:016X}"} if serial else {}
    file.write_text(json.dumps({"last_drawn": "000000", "gear": them}))
    return file


def read_alone(file: pathlib.Path, address: int, *words: object) -> serials.Serial | None:
    """What is read of the gear with a short address, over a driver with these words."""
    driver = [ROOT / "adapters/simulated", file, "--alike", *map(str, words)]
    with subprocess.Popen(driver, stdin=subprocess.PIPE, stdout=subprocess.PIPE, text=True, bufsize=1) as ran:

        def put(frame: str, asks: bool, priority: int) -> str:
            ran.stdin.write(f"put {priority} {frame} {'ask' if asks else 'tell'}\n")
            return ran.stdout.readline().removesuffix("\n")

        found = serials.read_of(put, address)
        ran.stdin.close()
        return found


def check_serials(checks: Checks, folder: pathlib.Path) -> None:
    """What `check --serials` reads, keeps and says."""
    gear = folder / "gear.json"
    lit(gear, (5, GEAR[0], FIRST), (5, GEAR[0], OTHER), (7, GEAR[1], FIRST), (9, GEAR[2], None), (11, GEAR[3], ((1 << 48) - 1, (1 << 64) - 1)))
    wanted = {5: None, 7: KNOWN, 9: {}, 11: serials.NONE, 12: {}}
    checks.same({it: read_alone(gear, it) for it in wanted}, wanted, "what each gear tells; twins are told")
    troubles = [word for it in ("lose", "damage", "destroy", "lapse", "foreign") for word in (f"--{it}", 0.03)]
    for seed in range(3):
        found = [read_alone(gear, it, "--seed", seed, *troubles) for it in (5, 7)]
        checks.same(found, [None, KNOWN], f"also if frames are disturbed, seed {seed}")
    room = Room(folder, records={"5": GEAR[0], "7": GEAR[1], "9": GEAR[2]}, gear=GEAR[:3])
    file = serials.file_of(room.records)
    driver = ("--driver", f"adapters/simulated {gear} --alike")
    wrote, said, status = room.ran("check", "--serials", "--json", *driver)
    report = json.loads(wrote)
    told = [(it["address"], it["random"], it["gtin"], it["several"], it["unread"]) for it in report["serials"]]
    both = ["gtin", "identification"]
    checks.same(told, [(5, GEAR[0], None, True, both), (7, GEAR[1], FIRST[0], False, []), (9, GEAR[2], None, False, both)], "as JSON")
    checks.same((status, report["status"], report["end"]), (13, 13, "as-recorded"), "twins are not well")
    is_said = f"5 {GEAR[0]} twins: " in said and f"7 {GEAR[1]} {TEXT}\n" in said
    checks.say(is_said and f"9 {GEAR[2]} no serial number was read\n" in said, f"in words: {said}")
    checks.same(serials.read(file), {GEAR[1]: KNOWN}, "what is kept: none of twins, nor of one that told none")
    check_shown(checks, room)
    check_read_again(checks, room, gear, driver)
    check_not_read(checks, folder)
    check_two_readings(checks, folder)


def check_shown(checks: Checks, room: Room) -> None:
    """The table and the page have the numbers."""
    places.note(room.names, GEAR[1], "Hall")
    checks.same(room.ran("table", "--names")[0], f"5 {GEAR[0]}\n7 {GEAR[1]} Hall ({TEXT})\n9 {GEAR[2]}\n", "table --names")
    rows = list(csv.DictReader(io.StringIO(room.ran("table", "--names", "--csv")[0])))
    found = [(it["address"], it["place"], it["gtin"], it["identification"]) for it in rows]
    checks.same(found, [("5", "", "", ""), ("7", "Hall", "4012345678901", "0x0123456789ABCDEF"), ("9", "", "", "")], "table --names --csv")
    found = json.loads(room.ran("table", "--names", "--json")[0])[1]
    checks.same(found, {"address": 7, "random": GEAR[1], "place": "Hall", **KNOWN}, "table --names --json")
    with Page(room) as page:
        checks.same([it["serial"] for it in page.state()["places"]], [None, KNOWN, None], "the page has them")
        checks.same(page.got("table.csv")[1].splitlines()[2], f"7,0x{GEAR[1]},Hall,4012345678901,0x0123456789ABCDEF", "and its CSV")


def check_read_again(checks: Checks, room: Room, gear: pathlib.Path, driver: tuple[str, str]) -> None:
    """Another gear under the number of one that was read, one number under two addresses, and what cannot be read."""
    lit(gear, (5, GEAR[0], FIRST), (7, GEAR[1], OTHER), (63, "50000E", FIRST))
    room.bus.write_text(json.dumps([*GEAR[:3], "50000E"]))
    _, said, status = room.ran("check", "--serials", *driver)
    checks.say(f"7 {GEAR[1]} another gear than at the last reading, which told {TEXT}\n" in said and status == 1, f"another gear under a number: {said}")
    found, told = {7: GEAR[1], 63: GEAR[1]}, {7: KNOWN, 63: KNOWN | {"gtin": 2}}
    said = "\n".join(serials.lines_of(found, told, {GEAR[1]: KNOWN}))
    is_said = f"7 and 63: gear with one random address, {GEAR[1]}, " in said and "another" not in said
    checks.say(is_said, f"one number under two addresses, of which neither is another than before: {said}")
    _, said, status = room.ran("check", "--serials", "--driver", f"{driver[1]} --destroy 1")
    checks.say(status == 7 and "eight times in a row" in said, f"frames that are lost: {said}")
    for words, wanted in ((["check", "--serials"], 2), (["check", *driver], 2), (["run", "--serials", *driver], 2), (["check", "--serials", "--driver", "./none"], 127)):
        checks.same(room.ran(*words)[2], wanted, f"words that are refused: {words}")
    for text in ("", "[]", '{"x": 1}', '{"10000A": {}}', '{"10000A": {"gtin": -1, "identification": null}}'):
        file = serials.file_of(room.records)
        file.write_text(text)
        checks.same(serials.read(file), {}, f"a file that has no serial numbers: {text!r}")


def answering(odd: dict[int, list[str]]) -> serials.Put:
    """Gear that tells the number of its location at each, after what is heard first at some."""
    at = [0]

    def put(frame: str, asks: bool, _priority: int) -> str:
        at[0] = at[0] + 1 if asks else int(frame[2:], 16) - 1 if frame.startswith("A3") else at[0]
        if not asks:
            return "silence"
        return odd[at[0]].pop(0) if odd.get(at[0]) else f"byte {at[0]:02X}"

    return put


def check_not_read(checks: Checks, folder: pathlib.Path) -> None:
    """An answer that is lost or damaged is asked for again; what is not read is no other gear's, and nothing of it is kept."""
    whole = {"gtin": 0x030405060708, "identification": "0B0C0D0E0F101112"}
    for often, gtin, identification in ((1, {}, {}), (7, {}, {}), (8, {"gtin"}, {"identification"})):
        for lost, location in ((gtin, 0x05), (identification, 0x12)):
            wanted = {name: it for name, it in whole.items() if name not in lost}
            checks.same(serials.read_of(answering({location: often * ["silence"]}), 5), wanted, f"a byte that is silent {often} times")
            told = None if lost else whole
            checks.same(serials.read_of(answering({location: often * ["damaged"]}), 5), told, f"a byte that is damaged {often} times")
    file, random = folder / "kept.serials.json", GEAR[0]
    for read, wanted in (({"gtin": 5}, {"gtin": 5, "identification": None}), (KNOWN, KNOWN), ({}, KNOWN), ({"gtin": 4}, KNOWN | {"gtin": 4}), (serials.NONE, KNOWN | {"gtin": 4})):
        serials.keep(file, {random: read})
        checks.same(serials.read(file), {random: wanted}, f"what was known stays when this is read: {read}")
    for read, text, is_another in (
        ({}, "no serial number was read", False), ({"gtin": FIRST[0]}, f"GTIN {FIRST[0]}, identification number not read", False), (KNOWN, TEXT, False),
        ({"identification": None}, "GTIN not read", True), ({"gtin": 5}, "GTIN 5, identification number not read", True),
        (serials.NONE, "the gear tells that it has no serial number", True),
    ):
        lines = [f"5 {random} {text}", *([f"5 {random} another gear than at the last reading, which told {TEXT}"] if is_another else [])]
        checks.same(list(serials.lines_of({5: random}, {5: read}, {random: KNOWN})), lines, f"what is said when this is read: {read}")
    checks.same(list(serials.lines_of({5: random}, {5: KNOWN}, {random: serials.NONE})), [f"5 {random} {TEXT}"], "what was not known is no other gear's")
    check_lossy(checks, folder)


def check_lossy(checks: Checks, folder: pathlib.Path) -> None:
    """Of ten gear, which are read again and again while answers are lost, none becomes another one, and no number is lost."""
    numbers = {f"{at:06X}": (FIRST[0] + at, FIRST[1] + at) for at in range(10)}
    gear = lit(folder / "lossy.json", *((at, random, serial) for at, (random, serial) in enumerate(numbers.items())))
    room = Room(folder, records={str(at): random for at, random in enumerate(numbers)}, gear=list(numbers))
    wanted = {random: {"gtin": gtin, "identification": f"{number:016X}"} for random, (gtin, number) in numbers.items()}
    for lost in (0, 0.1, 0.3, 0.7):
        _, said, status = room.ran("check", "--serials", "--driver", f"adapters/simulated {gear} --alike --seed 1 --lose {lost}")
        checks.say(status == 0 and "another" not in said and "unclear" not in said, f"{lost} of the answers are lost: {status} {said}")
        checks.same(serials.read(serials.file_of(room.records)), wanted, f"what was known stays: {lost} of the answers are lost")
        checks.say(lost < 0.5 or " not read" in said, f"and what was not read is said: {said}")


def check_two_readings(checks: Checks, folder: pathlib.Path) -> None:
    """A gear is another one only if two readings tell the same. Each time that the driver is started it has other gear."""
    room, turn = Room(folder, records={"7": GEAR[1]}, gear=[GEAR[1]]), folder / "turn"
    script = 'read -r at < "$0"; echo $((at + 1)) > "$0"; exec "$1" "$2-$at.json" --alike'
    command = f"sh -c '{script}' {turn} {ROOT / 'adapters/simulated'} {folder / 'at'}"
    for seconds, text, status, kept in (
        (KNOWN, f"7 {GEAR[1]} {TEXT}\n", 0, KNOWN), (OTHER, "unclear: two readings told different serial numbers", 15, KNOWN),
        (None, "unclear: two readings told different serial numbers", 15, KNOWN), (FIRST, "another gear than at the last reading", 0, None),
    ):
        rows = [FIRST, FIRST if seconds == KNOWN else (5, 6), (5, 6) if seconds == FIRST else OTHER]
        for at, serial in enumerate(rows):
            lit(folder / f"at-{at}.json", *([] if at == 2 and seconds is None else [(7, GEAR[1], serial)]))
        turn.write_text("0\n")
        wrote, said, found = room.ran("check", "--serials", "--json", "--driver", command)
        checks.say(text in said and found == status, f"two readings: {found} {said}")
        checks.same(serials.read(serials.file_of(room.records))[GEAR[1]], kept or {"gtin": 5, "identification": f"{6:016X}"}, "what is kept of it")
        it = json.loads(wrote)["serials"][0]
        checks.same((it["several"], it["gtin"] is None), (None, True) if status == 15 else (False, False), "as JSON")
