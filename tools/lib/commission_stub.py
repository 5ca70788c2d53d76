#!/usr/bin/env -S python3 -S -E
"""Stands for the program `dali_commission` in checks that have no kit: it takes its words and says what it says.

The file of the records is JSON, a random address for each short one. The file that BUS names, or else `bus.json` beside the records, has
the random addresses of the gear that are there. A frame is put for each gear; while a file `hold` lies beside that one, it waits at the
second. A file `odd` there has short addresses at which several gear answer, of which `mend` leaves those that a file `stuck` has; a file
`dark` has those at which none does, a file `unclear` those at which that is not clear. A run asks those that a file `asked` has for their random addresses before all else. It gives
addresses of its block, and gives up as often as a file `lost` has members. After a `clear` those of `stuck` still answer.
"""

import contextlib
import fcntl
import json
import os
import pathlib
import sys
import time
import typing

NOT_THERE = "a gear of the tables is not there as recorded; if it is known to be gone, name it by --missing"


def option(name: str, words: typing.Sequence[str]) -> list[str]:
    return [words[at + 1] for at, it in enumerate(words) if it == name]


def bus() -> pathlib.Path:
    records = (option("--records", sys.argv) or ["none"])[0]
    return pathlib.Path(os.environ.get("BUS") or pathlib.Path(records).with_name("bus.json"))


def put(frame: str, number: int = 2) -> None:
    """Puts a frame, and waits for what the driver tells."""
    print(f"put 3 {frame} ask", flush=True)
    if not sys.stdin.readline():
        sys.exit(4)
    while number >= 2 and bus().with_name("hold").exists():
        time.sleep(0.02)


def say(text: str) -> None:
    """Says something. Where nobody hears it, nothing else changes."""
    with contextlib.suppress(OSError):
        os.write(2, f"{text}\n".encode())


def beside(name: str) -> list[int]:
    """The short addresses that a file beside the gear has."""
    file = bus().with_name(name)
    return json.loads(file.read_text()) if file.exists() else []


def listed(records: dict[str, str]) -> list[dict[str, object]]:
    return [{"address": int(it), "random": records[it], "given": True} for it in sorted(records, key=int)]


def ended(end: str, status: int, records: dict[str, str], **more: object) -> None:
    found = {"end": end, "status": status, "frames": 9, "enrolled": 0, "table": listed(records), "left_alone": [], "missing": []}
    print(json.dumps({**found, "strangers": [], "unaddressed": None, **more}), flush=True)
    sys.exit(status)


def run(file: pathlib.Path, records: dict[str, str], gear: list[str], block: str) -> None:
    first, last = map(int, block.split("-"))
    if lost := beside("lost"):
        bus().with_name("lost").write_text(json.dumps(lost[1:]))
        say("frames were lost eight times in a row")
        say("0 gear were enrolled, 0 are in the table; 9 frames")
        say("ended: gave-up")
        ended("gave-up", 7, records)
    for frame in (f"{2 * it + 1:02X}{part}" for it in beside("asked") for part in ("C2", "C3", "C4")):
        put(frame, 1)
    for number, random in enumerate(gear, 1):
        put("A900", number)
        if random not in records.values():
            records[str(next(it for it in range(first, last + 1) if str(it) not in records))] = random
            new = file.with_name(f"{file.name}.written")
            new.write_text(json.dumps(records))
            new.replace(file)
        say(f"{number} gear found, {9 * number} frames, {64 - number} addresses left")
    for it in beside("odd"):
        say(f"{it} - a gear answers, but its random address was not heard; left alone")
    end, status = ("shared", 13) if beside("odd") else ("unclear", 15) if beside("unclear") else ("all-found", 0)
    ended(end, status, records, left_alone=[*beside("odd"), *beside("unclear")])


def check(records: dict[str, str], gear: list[str]) -> None:
    put("0BC2")
    missing = [int(it) for it in records if records[it] not in gear]
    for it in missing:
        say(f"{it} {records[str(it)]} missing")
    strangers = [it for it in gear if it not in records.values()]
    others = [{"address": 63 - at, "is": "stranger", "random": it} for at, it in enumerate(strangers)]
    others += [{"address": it, "is": "unclear" if str(it) in records else "unclear-strangers", "random": None} for it in beside("odd") + beside("unclear")]
    if not gear:
        ended("nobody-answered", 10, records, missing=missing, unaddressed=False)
    end, status = ("unclear", 15) if beside("unclear") else ("not-as-recorded", 1) if missing or others else ("as-recorded", 0)
    end, status = ("shared", 13) if beside("odd") else (end, status)
    ended(end, status, records, missing=missing, strangers=others, unaddressed=False)


def refuse_away(task: str, missing: list[str], records: dict[str, str], words: tuple[str, ...]) -> None:
    """Refuses if one of those that are missing is not named as gone."""
    if away := [it for it in missing if it not in option("--missing", words)]:
        for it in missing:
            say(f"{it} {records[it]} missing")
        say(f"not {task}, nothing was changed: short address {away[0]}: {NOT_THERE}")
        ended(f"not-{task}", 11, {}, missing=[int(it) for it in missing])


def mend(records: dict[str, str], gear: list[str], words: tuple[str, ...]) -> None:
    named = [int(it) for at, it in enumerate(words) if it.isdigit() and words[at - 1] != "--missing"]
    put("A900")
    for it in named:
        if it not in beside("odd") and str(it) not in records:
            say(f"not mended, nothing was changed: short address {it}: no gear answers at it")
            ended("not-mended", 11, {})
    missing = [it for it in records if records[it] not in gear]
    for it in missing:
        put(f"{2 * int(it) + 1:02X}C2", 1)
    refuse_away("mended", missing, records, words)
    left = [it for it in beside("odd") if it in beside("stuck") or named and it not in named]
    bus().with_name("odd").write_text(json.dumps(left))
    for it in left:
        if it in beside("stuck"):
            say(f"{it} - given up: no gear was told apart any more")
    end, status = ("shared", 13) if left else ("unclear", 15) if beside("unclear") else ("mended", 0)
    ended(end, status, records, left_alone=[*left, *beside("unclear")])


def clear(words: tuple[str, ...]) -> None:
    if "--yes" not in words:
        sys.exit(2)
    for it in option("--records", words):
        with contextlib.suppress(FileNotFoundError):
            os.rename(it, f"{it}.before-1")
    put("A900")
    bus().with_name("odd").write_text("[]")
    left = [{"address": it, "is": "stranger", "random": None} for it in beside("stuck")]
    ended("not-cleared" if left else "cleared", 14 if left else 0, {}, strangers=left, unaddressed=True)


def replace(file: pathlib.Path, records: dict[str, str], gear: list[str], words: tuple[str, ...]) -> None:
    address = next(it for at, it in enumerate(words) if it.isdigit() and words[at - 1] != "--missing")
    put("A900")
    refuse_away("replaced", [it for it in records if records[it] not in gear and it != address], records, words)
    new = [it for it in gear if it not in records.values()]
    if records[address] in gear or len(new) != 1:
        say(f"not replaced, nothing was changed: short address {address}: a gear answers at it")
        ended("not-replaced", 11, {})
    records[address] = new[0]
    file.write_text(json.dumps(records))
    ended("replaced", 0, records)


def identify(address: int) -> None:
    put(f"{2 * address + 1:02X}C2")
    if address in beside("dark"):
        say(f"no gear answers at short address {address}")
        ended("nobody-answered", 10, {})
    for level in 5 * ("FE", "00"):
        put(f"{2 * address:02X}{level}")
        time.sleep(0.05)
    say("shown")


def main(task: str, *words: str) -> None:
    if task == "identify" and not bus().exists():
        # It is not told which bus it is at.
        identify(int(words[-1]))
        return
    gear = json.loads(bus().read_text())
    file = pathlib.Path(*option("--records", words)[:1])
    records = json.loads(file.read_text()) if file.is_file() else {}
    if task == "table":
        rows = ",\n".join(json.dumps({"address": it["address"], "random": it["random"]}) for it in listed(records))
        print(f"[\n{rows}\n]")
        return
    with open(f"{bus()}.lock", "a") as lock:
        try:
            fcntl.flock(lock, fcntl.LOCK_EX | fcntl.LOCK_NB)
        except BlockingIOError:
            say(f"error: {file}: another program has the file open")
            sys.exit(5)
        if task == "run":
            run(file, records, gear, words[-1])
        elif task == "check":
            check(records, gear)
        elif task == "identify":
            identify(int(words[-1]))
        elif task == "mend":
            mend(records, gear, words)
        elif task == "clear":
            clear(words)
        elif task == "replace":
            replace(file, records, gear, words)
        else:
            sys.exit(2)


if __name__ == "__main__":
    main(*sys.argv[1:])
