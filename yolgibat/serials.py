"""The serial numbers of gear, and `check --serials`, which checks a bus by dali_commission and then reads that of each gear that answered alone,
over the same driver, which is started once more.

A serial number is the GTIN and the identification number of memory bank 0, which is asked for by DTR1, DTR0 and READ MEMORY LOCATION. These
commands are from memory of IEC 62386-102; no proof speaks of their frames, and gear of no maker were tried. The numbers are kept beside the
records by random address. They can be read again, so a file that has anything else counts as none.

The status is that of `check`, 13 in place of 0 if twins answer, 15 if two readings differ; 7 if frames of the reading were lost."""

import argparse
import collections
import collections.abc
import json
import os
import pathlib
import re
import sys
import tempfile
import typing

from yolgibat import ROOT, joining, places, programs, standard

ENDING = ".serials.json"
DONE, NOT_SO, DRIVER, GAVE_UP, DOUBLE, UNCLEAR = 0, 1, 4, 7, 13, 15
# A process that reads the numbers at the short addresses behind it, and the folder of this package.
CALL = "import sys; sys.path[0] = sys.argv[1]; from yolgibat import serials; sys.exit(serials.reads(sys.argv[2:]))"
# The opcode of READ MEMORY LOCATION, and how DTR1 and DTR0 are set: to bank 0, and to the location of its first byte. DTR0 goes on by itself.
READ, DTR1, DTR0 = 0xC5, "C300", "A3{:02X}"
BYTES = {"gtin": range(0x03, 0x09), "identification": range(0x0B, 0x13)}
# How often in a row a byte is asked for that no gear tells, or that is heard as damaged; and how often a transaction is lost.
MOST, LOST = 8, ("destroyed", "lapsed")
HEXADECIMAL = re.compile(r"[0-9A-F]{16}")
# A serial number: None if it is known of no gear, or the gear tells that it has none. What was read lacks what was not read.
Serial = dict[str, typing.Any]
NONE: Serial = dict.fromkeys(BYTES)
# Puts a frame, with whether it asks and its priority, and returns what the driver tells.
Put = collections.abc.Callable[[str, bool, int], str]


class Lost(Exception):
    """The frames of one transaction were lost eight times in a row."""


def bytes_of(put: Put, address: int, where: range) -> bytes | str:
    """The bytes of memory bank 0 of the gear with a short address; or what was told in place of one of them eight times in a row."""
    found, odd = b"", collections.Counter()
    while len(found) < len(where):
        more, told = transacted(put, address, where[len(found) :])
        found, odd = found + more, collections.Counter() if more else odd
        odd[told] += 1
        if odd[told] >= MOST and told in LOST:
            raise Lost
        if odd[told] >= MOST:
            return told
    return found


def transacted(put: Put, address: int, where: range) -> tuple[bytes, str]:
    """The bytes that are told in one transaction, and what was told last."""
    frames = [(DTR1, False), (DTR0.format(where[0]), False), *[(f"{2 * address + 1:02X}{READ:02X}", True)] * len(where)]
    found, told = b"", ""
    for number, (frame, asks) in enumerate(frames):
        told = put(frame, asks, 1 if number else 3)
        if told in LOST or asks and not told.startswith("byte "):
            break
        found += bytes.fromhex(told[5:]) if asks else b""
    return found, told


def read_of(put: Put, address: int) -> Serial | None:
    """What the gear with a short address tells of its serial number, without what was not read; or None if several gear answer there."""
    told = {name: bytes_of(put, address, where) for name, where in BYTES.items()}
    if "damaged" in told.values():
        return None
    return {name: value_of(name, it) for name, it in told.items() if isinstance(it, bytes)}


def value_of(name: str, told: bytes) -> int | str | None:
    if set(told) == {0xFF}:
        return None
    return int.from_bytes(told, "big") if name == "gtin" else told.hex().upper()


def answered(report: dict[str, typing.Any]) -> dict[int, str]:
    """The random address of each gear that answered alone to a check, by short address."""
    odd = {it["address"]: it["random"] for it in report["strangers"] if it["is"] in ("stranger", "another")}
    silent = {*report["missing"], *(it["address"] for it in report["strangers"])}
    return {it["address"]: it["random"] for it in report["table"] if it["address"] not in silent} | odd


def is_another(serial: Serial, last: Serial) -> bool:
    """Whether what was read differs from what was known. What was not read, or not known, differs from nothing."""
    return any(last.get(name) is not None and serial[name] != last[name] for name in serial)


def shared_of(found: dict[int, str]) -> dict[str, list[int]]:
    """The random addresses that were found under several short addresses, with these."""
    addresses = collections.defaultdict(list)
    for address, random in found.items():
        addresses[random].append(address)
    return {random: them for random, them in addresses.items() if len(them) > 1}


def text_of(serial: Serial) -> str:
    """What was read, and what was not."""
    words = {"gtin": "GTIN", "identification": "identification number"}
    missing = [f"{words[it]} not read" for it in NONE if it not in serial] if serial else ["no serial number was read"]
    return ", ".join(filter(None, [places.serial_text(serial), *missing])) or "the gear tells that it has no serial number"


def lines_of(
    found: dict[int, str], told: dict[int, Serial | None], before: dict[str, Serial], unclear: collections.abc.Container[int] = ()
) -> collections.abc.Iterator[str]:
    """What is said of the gear that were found: their serial numbers, and which of them are not who their addresses say. Of those that are
    unclear two readings told different numbers."""
    shared = shared_of(found)
    for address, random in found.items():
        serial, last = told.get(address, {}), before.get(random, NONE)
        if address in unclear:
            yield f"{address} {random} unclear: two readings told different serial numbers; check once more on a quiet bus"
        elif serial is None:
            yield f"{address} {random} twins: gear with one short and one random address, and different serial numbers; take all but one from the bus"
        else:
            yield f"{address} {random} {text_of(serial)}"
            if random not in shared and is_another(serial, last):
                yield f"{address} {random} another gear than at the last reading, which told {places.serial_text(last)}"
    for random, them in shared.items():
        them = " and ".join(map(str, them))
        yield f"{them}: gear with one random address, {random}, under different short addresses; their serial numbers tell them apart"


def file_of(records: str | pathlib.Path) -> pathlib.Path:
    """Where the serial numbers of the gear of these records are kept."""
    return pathlib.Path(records).with_suffix(ENDING)


def is_serial(value: object) -> bool:
    if not isinstance(value, dict) or set(value) != set(NONE):
        return False
    gtin, identification = value["gtin"], value["identification"]
    is_well = identification is None or isinstance(identification, str) and HEXADECIMAL.fullmatch(identification)
    return bool(is_well) and (gtin is None or type(gtin) is int and 0 <= gtin < 1 << 48)


def read(file: pathlib.Path) -> dict[str, Serial]:
    """The serial numbers that are kept, by random address."""
    try:
        value = json.loads(file.read_text(encoding="utf-8"))
    except (OSError, ValueError, RecursionError):
        return {}
    is_well = isinstance(value, dict) and all(places.RANDOM.fullmatch(it) and is_serial(value[it]) for it in value)
    return value if is_well else {}


def keep(file: pathlib.Path, them: dict[str, Serial]) -> None:
    """Keeps what was read beside what is kept already. What was known stays, if it was not read anew."""
    with places.alone(file.parent) as folder:
        before = read(file)
        now = before | {it: {**NONE, **before.get(it, {}), **{name: of for name, of in them[it].items() if of is not None}} for it in them}
        if now != before:
            places.write(file, now, folder)


# The reading.


def joined(words: list[str], chosen: argparse.Namespace, title: str | None = None) -> tuple[str, int]:
    """What a process over the driver writes, and its status."""
    with tempfile.TemporaryFile() as kept:
        out = os.dup(1)
        os.dup2(kept.fileno(), 1)
        try:
            status = joining.join(words, chosen.driver, chosen.seconds, title=title)
        finally:
            os.dup2(out, 1)
            os.close(out)
        kept.seek(0)
        return kept.read().decode(), status


def put(frame: str, asks: bool, priority: int) -> str:
    """Puts a frame, and returns what the driver tells."""
    print(f"put {priority} {frame} {'ask' if asks else 'tell'}", flush=True)
    line = sys.stdin.readline()
    if not line.endswith("\n"):
        sys.exit(DRIVER)
    return line.removesuffix("\n")


def reads(addresses: list[str]) -> int:
    """Writes what each gear at these short addresses tells of its serial number as JSON, null if several gear answer there."""
    found = {}
    try:
        for it in addresses:
            found[it] = read_of(put, int(it))
    except Lost:
        standard.say("a frame of one transaction was destroyed or not sent, eight times in a row: serial numbers were not read to the end")
        return GAVE_UP
    finally:
        print(json.dumps(found))
    return DONE


def reading(chosen: argparse.Namespace, addresses: typing.Iterable[int]) -> tuple[dict[int, Serial | None], int]:
    """What the gear at these short addresses tell, as a process of its own reads it, and its status."""
    wrote, status = joined([sys.executable, "-S", "-c", CALL, str(ROOT), *map(str, addresses)], chosen, "serials") if addresses else ("", DONE)
    return {int(it): serial for it, serial in (json.loads(wrote) if wrote else {}).items()}, status


def read_all(
    chosen: argparse.Namespace, found: dict[int, str], before: dict[str, Serial]
) -> tuple[dict[int, Serial | None], set[int], int]:
    """What all that were found tell, at which short addresses a second reading told something else, and the status. It is made if a gear
    seems to be another one than before."""
    told, status = reading(chosen, found)
    odd = [it for it, serial in told.items() if serial and is_another(serial, before.get(found[it], {}))]
    again, more = reading(chosen, odd)
    return told, {it for it in odd if again.get(it) != told[it]}, status or more


def member_of(address: int, random: str, serial: Serial | None, is_unclear: bool) -> dict[str, typing.Any]:
    """What is told of a gear as JSON."""
    known = {} if is_unclear else serial or {}
    several = None if is_unclear else serial is None
    return {"address": address, "random": random, **NONE, **known, "several": several, "unread": [it for it in NONE if it not in known]}


def main(chosen: argparse.Namespace) -> int:
    if not programs.can_start("dali_commission", chosen.driver):
        return joining.NOT_STARTED
    program, status = programs.commission(chosen.program)
    if status:
        return status
    others = [word for it in chosen.others for word in ("--others", it)]
    wrote, status = joined([program, "check", "--json", "--records", chosen.records, *others], chosen)
    if status not in (DONE, NOT_SO, DOUBLE, UNCLEAR):
        return standard.ended(wrote if chosen.json else "", status)
    report = json.loads(wrote)
    found, file = answered(report), file_of(chosen.records)
    before = read(file)
    told, unclear, lost = read_all(chosen, found, before)
    for line in lines_of(found, told, before, unclear):
        standard.say(line)
    shared = shared_of(found)
    keep(file, {found[it]: serial for it, serial in told.items() if serial and it not in unclear and found[it] not in shared})
    status = lost or status or (DOUBLE if None in told.values() else UNCLEAR if unclear else DONE)
    if chosen.json:
        them = [member_of(it, found[it], told.get(it, {}), it in unclear) for it in sorted(found)]
        return standard.ended(json.dumps({**report, "status": status, "serials": them}, separators=(",", ":")) + "\n", status)
    return status
