"""What is odd on a bus, kept beside the records until a check finds otherwise, so that a page which is begun again hides none of it."""

import json
import pathlib
import typing

from yolgibat import places

# What a file of marks ends with, in the place of the ending of the file of records.
ENDING = ".marks.json"


class Marks(typing.NamedTuple):
    """What is odd: the short addresses that a run left alone; who answers otherwise than is recorded, as the last check found it, each with
    the random address that was heard; the luminaires that it missed, by both addresses; and when it was."""

    left_alone: list[int] = []
    strangers: dict[int, tuple[str, str | None]] = {}
    missing: set[tuple[int, str]] = set()
    checked: float | None = None


def file_of(records: str | pathlib.Path) -> pathlib.Path:
    """Where the marks of these records are kept."""
    return pathlib.Path(records).with_suffix(ENDING)


def read(file: pathlib.Path) -> Marks:
    """The marks that are kept. A file that is not there, or has something else, has none."""
    try:
        it = json.loads(file.read_text(encoding="utf-8"))
        strangers = {int(at): (str(what), heard) for at, (what, heard) in it["strangers"].items()}
        missing = {(int(at), str(random)) for at, random in it["missing"]}
        found = Marks([int(at) for at in it["left_alone"]], strangers, missing, it["checked"])
    except (OSError, ValueError, KeyError, TypeError, AttributeError, RecursionError):
        return Marks()
    is_well = all(at in range(64) for at in (*found.left_alone, *strangers)) and isinstance(found.checked, (int, float, type(None)))
    return found if is_well else Marks()


def keep(file: pathlib.Path, them: Marks) -> None:
    if them != read(file):
        with places.alone(file.parent) as folder:
            places.write(file, {**them._asdict(), "missing": sorted(them.missing)}, folder)
