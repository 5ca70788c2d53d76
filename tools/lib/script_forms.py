"""Scripts of `dali_sim replay`, as docs/FORMAT.md has them: their limits, how their first lines are written, and what a
script says: its plan, its lines, and the fault it ends in. The forms of lines are those of the program's table."""

import collections.abc
import dataclasses
import re

from lib import ROOT, line_forms

MOST_BYTES = 1_048_576
MOST_GEAR = 128
MOST_CONTROLLERS = 4
MOST_DRAWS = 1_024
LAST_ADDRESS = 63
NO_RANDOM = 0xFFFFFF
TOO_LONG = "replay: the input cannot be read, or is longer than 1,048,576 bytes\n"
NUMBER = "(?:0|[1-9][0-9]{0,5}|1000000)"
ADDRESS = "(?:0|[1-9][0-9]?|1[0-9][0-9]|2[0-4][0-9]|25[0-5])"
TAKER = "(?:0|[1-9][0-9]?|1[01][0-9]|12[0-7])"
BLOCK = re.compile(f"({ADDRESS})-({ADDRESS})")
# What stands for a word in the forms of lines, and how often where `..` follows.
KINDS = {
    "N": NUMBER,
    "g": NUMBER,
    "c": NUMBER,
    "n": NUMBER,
    "A": "(?:[0-9]|[1-5][0-9]|6[0-3])",
    "HHHH": "[0-9A-Fa-f]{4}",
    "RRRRRR": "[0-9A-Fa-f]{6}",
    "BLOCK": f"{ADDRESS}-{ADDRESS}",
    "L": f"(?:-|{TAKER}(?:,{TAKER})*)",
}
REPEATED = {"BLOCK": "*", "RRRRRR": f"{{0,{MOST_DRAWS}}}"}


def pattern_of(form: str) -> str:
    """What a line of a form looks like, with a group for each word that stands for others, and for a list of such."""
    text = re.sub(r" (\w+) \.\.$", lambda it: f"((?: {KINDS[it[1]]}){REPEATED[it[1]]})", form)
    begin, rest = text.partition("(")[::2]
    words = [f"({KINDS[it]})" if line_forms.is_kind(it) else it for it in begin.split(" ")]
    return " ".join(words) + (f"({rest}" if rest else "")


def lines_of(name: str) -> re.Pattern[str]:
    """What a line looks like that has a form of this list of the program."""
    return re.compile("|".join(pattern_of(form) for form in line_forms.forms(ROOT, name)))


HEADING, DRAWS, USED, BENCH_LINE, SITE_LINE = map(lines_of, ("FIRST", "SECOND", "USED", "BENCH", "SITE"))


@dataclasses.dataclass
class Reading:
    """What a script says. `used` has the number, the short and the random address of each used gear. `lines` are those
    after the plan's, up to the first bad one, without those skipped."""

    status: int
    fault: str
    is_site: bool = False
    gear: int = 0
    blocks: list[tuple[int, int]] = dataclasses.field(default_factory=list)
    draws: list[str] = dataclasses.field(default_factory=list)
    used: list[tuple[int, int, str]] = dataclasses.field(default_factory=list)
    lines: list[str] = dataclasses.field(default_factory=list)


def block_of(word: str) -> tuple[int, int]:
    """The first and the last address of a block `a-b`."""
    form = BLOCK.fullmatch(word)
    if not form:
        raise ValueError(f"'{word}' is no block: two addresses with - between them, as in 0-15")
    first, last = map(int, form.groups())
    if not first <= last <= LAST_ADDRESS:
        raise ValueError(f"'{word}' is no block: the last address is at least the first, and at most {LAST_ADDRESS}")
    return first, last


def draws_line(numbers: collections.abc.Iterable[int]) -> str:
    """The line of the random addresses that the gear draw in turn."""
    return "".join(["draws", *(f" {number:06X}" for number in numbers)])


def used_line(gear: int, short: int, number: int) -> str:
    """The line of a gear that comes with a short and a random address."""
    return f"used {gear} {short} {number:06X}"


def bench_of(gear: int, numbers: collections.abc.Iterable[int], lines: list[str]) -> str:
    """The script of a bench of so many gear."""
    return "".join(f"{line}\n" for line in (f"bench {gear}", draws_line(numbers), *lines))


def site_of(gear: int, blocks: list[tuple[int, int]], numbers: collections.abc.Iterable[int], lines: list[str]) -> str:
    """The script of a site of so many gear, with a controller for each block."""
    named = "".join(f" {first}-{last}" for first, last in blocks)
    return "".join(f"{line}\n" for line in (f"site {gear}{named}", draws_line(numbers), *lines))


def plan_fault(
    gear: int, blocks: list[tuple[int, int]], draws: list[str], used: collections.abc.Sequence[tuple[int, int, str]] = ()
) -> str:
    """The first cause for which a plan is refused, or nothing."""
    places, shorts, randoms = ([one[at] for one in used] for at in range(3))
    taken = set()
    overlap = False
    for first, last in blocks:
        addresses = set(range(first, last + 1))
        overlap = overlap or bool(taken & addresses)
        taken |= addresses
    causes = (
        ("GearCount", not 1 <= gear <= MOST_GEAR),
        ("ControllerCount", not 1 <= len(blocks) <= MOST_CONTROLLERS),
        ("BlockOrder", any(first > last or last > LAST_ADDRESS for first, last in blocks)),
        ("BlockOverlap", overlap),
        ("DrawTooLarge", f"{NO_RANDOM:06X}" in draws),
        ("DrawTwice", len(set(draws)) < len(draws)),
        ("UnknownGear", any(place >= gear for place in places)),
        ("GearTwice", len(set(places)) < len(places)),
        ("ShortTwice", len(set(shorts)) < len(shorts)),
        ("RandomTooLarge", f"{NO_RANDOM:06X}" in randoms),
        ("RandomTwice", len(set(randoms)) < len(randoms) or bool(set(randoms) & set(draws))),
    )
    return next((name for name, holds in causes if holds), "")


def bad(number: int) -> str:
    return f"replay: line {number}: bad line\n"


def first_words(said: str) -> str:
    """What is said without the reason, which follows each bad line and each refused plan on the same line."""
    return re.sub(r"\A(replay: (?:line \d+: bad line|plan refused: \w+)): [ -~]+\n\Z", r"\1\n", said)


def plan_of(heading: re.Match[str], draws: re.Match[str]) -> Reading:
    """What the first two lines set up, so far as they can be read."""
    bench, site, listed = heading.groups()
    blocks = [tuple(map(int, block.split("-"))) for block in (listed or "").split()]
    numbers = [draw.upper() for draw in draws.group(1).split()]
    refused = plan_fault(int(bench or site), [(0, 0)] if bench else blocks, numbers)
    fault = f"replay: plan refused: {refused}\n" if refused else ""
    return Reading(1 if refused else 0, fault, site is not None, int(bench or site), blocks, numbers)


def reading_of(script: bytes) -> Reading:
    """What a script says."""
    if len(script) > MOST_BYTES:
        return Reading(3, TOO_LONG)
    lines = script.decode("latin-1").split("\n")
    if lines[-1] == "":
        lines.pop()
    told = ((number, line) for number, line in enumerate(lines, 1) if line and line[0] != "#")
    found = []
    for form in (HEADING, DRAWS):
        number, line = next(told, (len(lines) + 1, ""))
        match = form.fullmatch(line)
        if not match:
            return Reading(1, bad(number))
        found.append(match)
    reading = plan_of(*found)
    if reading.fault:
        return reading
    rest = list(told)
    while rest and rest[0][1].split(" ")[0] == "used":
        number, line = rest.pop(0)
        match = USED.fullmatch(line)
        if not match:
            return Reading(1, bad(number))
        reading.used.append((int(match.group(1)), int(match.group(2)), match.group(3).upper()))
    blocks = reading.blocks if reading.is_site else [(0, 0)]
    refused = plan_fault(reading.gear, blocks, reading.draws, reading.used)
    if refused:
        return Reading(1, f"replay: plan refused: {refused}\n")
    form = SITE_LINE if reading.is_site else BENCH_LINE
    for number, line in rest:
        if not form.fullmatch(line):
            reading.status, reading.fault = 1, bad(number)
            break
        reading.lines.append(line)
    return reading
