"""Where luminaires hang: places that are kept beside the records by random address, and the table with them."""

import contextlib
import csv
import fcntl
import io
import json
import os
import pathlib
import re
import typing

# How many characters a place may have, and how many places a file.
LONGEST, MOST = 120, 4096
# What a file of places ends with, in the place of the ending of the file of records.
ENDING = ".names.json"
RANDOM = re.compile(r"[0-9A-F]{6}")
# Characters that join or part the letters beside them, as in Persian and in pictures of several parts; and what no place begins or ends with.
JOINERS = "\u200c\u200d"
EDGES = f" {JOINERS}"
# In comma-separated values a random address has this before it, so that no spreadsheet takes it for a number, as it does 0969E9; and a text
# that a spreadsheet would take for a formula, an apostrophe.
HEXADECIMAL, FORMULA = "0x", re.compile(r"'*[=+@\-\uff1d\uff0b\uff20\uff0d]")
# A German spreadsheet wants semicolons, and at the beginning a mark that it is UTF-8.
MARK = "\ufeff"
# A gear of the table: its short address, its random address, and its place or None.
Row = dict[str, typing.Any]


class Unreadable(OSError):
    """A file that has no places, and is left as it is."""


def file_of(records: str | pathlib.Path) -> pathlib.Path:
    """Where the places of these records are kept: of `site.db` in `site.names.json` beside it."""
    return pathlib.Path(records).with_suffix(ENDING)


def clean(place: str) -> str:
    """A place as it is kept: on one line, of characters that can be printed and such that join them, which none begins or ends with."""
    line = " ".join("".join(it if it.isprintable() or it in JOINERS else " " for it in place).split())
    return line.strip(EDGES)[:LONGEST].rstrip(EDGES)


def read(file: pathlib.Path) -> dict[str, str]:
    """The places by random address. A file that is not there has none."""
    try:
        value = json.loads(file.read_text(encoding="utf-8"))
    except FileNotFoundError:
        return {}
    except (OSError, ValueError, RecursionError) as why:
        raise Unreadable(f"{file} cannot be read: {why}") from why
    is_well = isinstance(value, dict) and all(RANDOM.fullmatch(it) and isinstance(value[it], str) for it in value)
    if not is_well:
        raise Unreadable(f"{file} has something else than places by random address, and is left as it is")
    return value


@contextlib.contextmanager
def alone(folder: pathlib.Path) -> typing.Iterator[int]:
    """Lets one process at a time change what stands in a folder."""
    number = os.open(folder, os.O_RDONLY | os.O_DIRECTORY)
    try:
        fcntl.flock(number, fcntl.LOCK_EX)
        yield number
    finally:
        os.close(number)


def write(file: pathlib.Path, them: dict[str, str], folder: int) -> None:
    """Writes a file beside it onto the disk, and renames that: so it is whole at any moment."""
    new = file.with_name(f"{file.name}.new")
    with open(new, "w", encoding="utf-8") as it:
        json.dump(them, it, ensure_ascii=False, indent=1, sort_keys=True)
        it.write("\n")
        it.flush()
        os.fsync(it.fileno())
    os.replace(new, file)
    os.fsync(folder)


def note(file: pathlib.Path, random: str, place: str) -> str:
    """Keeps the place of a luminaire, or none where it is empty. What is kept."""
    place = clean(place)
    with alone(file.parent) as folder:
        them = read(file)
        if place and random not in them and len(them) >= MOST:
            raise Unreadable(f"{file} has {MOST} places, and no room for more")
        if them.get(random, "") != place:
            write(file, {key: text for key, text in {**them, random: place}.items() if text}, folder)
    return place


def hand_over(file: pathlib.Path, old: str, new: str) -> None:
    """A luminaire hangs where another one was; so it is where both had a place, too."""
    with alone(file.parent) as folder:
        them = read(file)
        if old != new and old in them:
            them[new] = them.pop(old)
            write(file, them, folder)


def rows(table: list[Row], places: dict[str, str], numbers: dict[str, Row] | None = None) -> list[Row]:
    """The gear of a table, as the program writes it with --json, each with its place; and with its serial number, if any is known."""
    more = [numbers.get(it["random"], {"gtin": None, "identification": None}) if numbers else {} for it in table]
    return [{"address": it["address"], "random": it["random"], "place": places.get(it["random"]), **serial} for it, serial in zip(table, more)]


def as_text(them: list[Row]) -> str:
    return "".join(f"{it['address']} {it['random']} {it['place'] or ''}".rstrip() + f" ({serial_text(it)})".replace(" ()", "") + "\n" for it in them)


def serial_text(serial: Row) -> str:
    """A serial number as it is said, and nothing if none is known."""
    known = [f"GTIN {serial['gtin']}"] if serial.get("gtin") is not None else []
    return ", ".join(known + ([f"identification number {serial['identification']}"] if serial.get("identification") else []))


def as_csv(them: list[Row], *before: str, is_german: bool = False) -> str:
    """A table as comma-separated values, with these columns before the others, and serial numbers behind them if any are known."""
    text, more = io.StringIO(), ("gtin", "identification") if any("gtin" in it for it in them) else ()
    writer = csv.writer(text, lineterminator="\n", delimiter=";" if is_german else ",")
    writer.writerow((*before, "address", "random", "place", *more))
    for it in them:
        serial = (it["gtin"], it["identification"] and HEXADECIMAL + it["identification"]) if more else ()
        writer.writerow((*(it[key] for key in before), it["address"], HEXADECIMAL + it["random"], safe(it["place"] or ""), *serial))
    return MARK * is_german + text.getvalue()


def safe(text: str) -> str:
    """A text that no spreadsheet takes for a formula."""
    return f"'{text}" if FORMULA.match(text) else text


def as_json(them: list[Row]) -> str:
    lines = ",\n".join(json.dumps(it, ensure_ascii=False, separators=(",", ":")) for it in them)
    return f"[\n{lines}\n]\n"
