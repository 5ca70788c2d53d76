"""Reads the table of a page, or of `table --names`, as comma-separated values."""

import csv
import io

from yolgibat import places


def of_csv(text: str) -> list[places.Row]:
    """The gear of a table that was written as comma-separated values, with places or without, also with random addresses as they are."""
    rows = list(csv.DictReader(io.StringIO(text.removeprefix(places.MARK)), delimiter=";" if text.startswith(places.MARK) else ","))
    them = [it.get("place") or "" for it in rows]
    return [
        {"address": int(it["address"]), "random": it["random"].removeprefix(places.HEXADECIMAL), "place": (place[1:] if is_safe(place) else place) or None}
        for it, place in zip(rows, them)
    ]


def is_safe(text: str) -> bool:
    """Whether a text has an apostrophe before it that is not its own."""
    return text.startswith("'") and bool(places.FORMULA.match(text))
