"""What a report of `dali_sim threads` must be, so that it agrees with itself."""

import re

DONE = ("all-found", "block-full", "gave-up")
ENDS = {
    *DONE,
    "halt conflict",
    "halt store",
    "refused",
    "turns-spent",
    "stopped",
    "no-memory",
    "down",
}
RANDOM = "[0-9A-F]{6}"
CONTROLLER = re.compile(r"controller (\d+): (.+)")
GEAR = re.compile(rf"gear (\d+) (on|off) (disabled|enabled|withdrawn) ({RANDOM}) ({RANDOM}) (-|\d+)")
TABLE = re.compile(rf"table (\d+):((?: \d+={RANDOM})*)")
ADDRESSED = re.compile(r"addressed (\d+) of (\d+)")


class Disagreement(Exception):
    """Something in a report contradicts the rest of it, or what was asked for."""


def check(holds: object, what: str) -> None:
    if not holds:
        raise Disagreement(what)


def read(line: str, form: re.Pattern[str]) -> tuple[str, ...]:
    match = form.fullmatch(line)
    check(match, f"no line of the form '{form.pattern}': {line!r}")
    return match.groups()


def ends_of(lines: list[str], controllers: int) -> list[str]:
    """How each controller ended."""
    ends = []
    for number, line in enumerate(lines):
        controller, end = read(line, CONTROLLER)
        check(int(controller) == number, f"not controller {number}: {line}")
        check(end in ENDS, f"no such end: {line}")
        ends.append(end)
    check(len(ends) == controllers, "a controller is missing")
    return ends


def holders_of(lines: list[str], allowed: set[int]) -> dict[int, str]:
    """The random address of the gear at each short address."""
    holders = {}
    randoms = set()
    for number, line in enumerate(lines):
        gear, power, _, random, _, short = read(line, GEAR)
        check(int(gear) == number, f"not gear {number}: {line}")
        check(power == "on", f"a gear lost its power: {line}")
        check(random == "FFFFFF" or random not in randoms, f"two gear with one random address: {line}")
        randoms.add(random)
        if short == "-":
            continue
        address = int(short)
        check(address not in holders, f"two gear with one address: {line}")
        check(address in allowed, f"an address of no block: {line}")
        check(random != "FFFFFF", f"an address without a random address: {line}")
        holders[address] = random
    return holders


def check_tables(lines: list[str], controllers: int, holders: dict[int, str]) -> None:
    """Each entry of each table names the gear that has its address."""
    for number, line in enumerate(lines):
        controller, entries = read(line, TABLE)
        check(int(controller) == number, f"not table {number}: {line}")
        seen = set()
        for entry in entries.split():
            address, random = entry.split("=")
            check(address not in seen, f"an address stands twice: {line}")
            seen.add(address)
            check(holders.get(int(address)) == random, f"the gear at {address} is another: {line}")
    check(len(lines) == controllers, "a table is missing")


def checked(report: str, gear: int, blocks: list[tuple[int, int]]) -> tuple[list[str], int]:
    """The ends of the controllers and how many gear have an address, of a report that agrees with itself."""
    lines = report.splitlines()
    controllers = len(blocks)
    check(report.endswith("\n"), "the last line has no end")
    check(len(lines) == 2 * controllers + gear + 1, f"{len(lines)} lines")
    allowed = {address for first, last in blocks for address in range(first, last + 1)}
    ends = ends_of(lines[:controllers], controllers)
    holders = holders_of(lines[controllers : controllers + gear], allowed)
    check_tables(lines[controllers + gear : -1], controllers, holders)
    addressed, of = read(lines[-1], ADDRESSED)
    check((int(addressed), int(of)) == (len(holders), gear), f"wrong count: {lines[-1]}")
    return ends, len(holders)
