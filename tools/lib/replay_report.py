"""What a report of `dali_sim replay` must be, so that it answers its script and agrees with itself."""

import collections
import re

from lib import script_forms
from lib.threads_report import DONE, GEAR, RANDOM, TABLE, check

FRAME = "[0-9A-F]{4}"
ANSWER = "(?:silence|damaged|byte [0-9A-F]{2})"
ENDS = f"(?:done (?:{'|'.join(DONE)}))"
COMMIT = rf"(?:commit (?:reserve|enrol|release) \d+ {RANDOM})"
UNKNOWN = "1 UnknownController"
DOWN = "2 ControllerDown"
NOT_DUE = "3 NotDue"
SPENT = "6 DrawsSpent"
FULL = "7 QueueFull"
LOG = "8 LogFull"
IN_USE = "10 AddressInUse"
NOT_FOREIGN = "11 NotForeign"


def form(right: str, *refusals: str) -> re.Pattern[str]:
    """The form of a line's report: what it reports where it is accepted, or one of its refusals."""
    return re.compile("|".join([right, *(f"refused {refusal}" for refusal in refusals)]))


# The report of each line, by its first words. `c` stands for the controller of the line, `f` for its frame.
BENCH = {
    "frame": form(rf"(?P<f>{FRAME}) {ANSWER}", SPENT),
    "off": form("ok", "1 UnknownGear"),
    "on": form("ok", "1 UnknownGear"),
    "expire": form("ok", "1 UnknownGear"),
    "quiet": form("ok"),
}
SITE = {
    "go": form(rf"(?P<c>\d): (?:put [13] {FRAME}|{COMMIT}|{ENDS})", UNKNOWN, DOWN, NOT_DUE, FULL, LOG, IN_USE),
    "survey": form(rf"(?P<c>\d): put 3 {FRAME}", UNKNOWN, DOWN, NOT_DUE, FULL, LOG),
    "store": form("ok", UNKNOWN, DOWN, NOT_DUE),
    "fail": form(r"(?P<c>\d): halt store", UNKNOWN, DOWN, NOT_DUE, FULL, LOG),
    "pump": form(rf"idle|\d: sent {FRAME} {ANSWER}", SPENT, LOG),
    "pump lost": form(rf"idle|\d: sent {FRAME} silence", SPENT, LOG),
    "pump noise": form(rf"idle|\d: sent {FRAME} damaged", SPENT, LOG),
    "pump destroyed": form(rf"idle|\d: destroyed {FRAME}", SPENT, LOG),
    "pump collision": form(rf"idle|\d: destroyed {FRAME}(?:, \d: destroyed {FRAME})?", LOG),
    "lapse": form(r"lapse (?:\d|-)", LOG),
    "arc": form(rf"(?P<c>\d): put 2 (?P<f>{FRAME})", UNKNOWN, DOWN, "4 NotArc", FULL, LOG),
    "foreign": form("ok", LOG, NOT_FOREIGN),
    "down": form("ok", UNKNOWN, DOWN, LOG),
    "up": form("ok", UNKNOWN, "2 ControllerUp", LOG),
    "off": form("ok", "1 UnknownGear", LOG),
    "on": form("ok", "1 UnknownGear", LOG),
    "expire": form("ok", "1 UnknownGear", LOG),
    "quiet": form("ok", LOG),
}
IN_ROUNDS = re.compile(rf"\d: (?:{COMMIT}|{ENDS})")
END_OF_ROUNDS = form("", SPENT, FULL, LOG, IN_USE)
RAN = re.compile(r"ran (\d+)")


class Report:
    """A report beside its script, line by line. `seen` counts what was in it."""

    def __init__(self, reading: script_forms.Reading, text: str) -> None:
        check(not text or text.endswith("\n"), "the last line has no end")
        self.reading = reading
        self.lines = text.split("\n")
        self.lines.pop()
        self.at = 0
        self.holders = {place: (random, str(short)) for place, short, random in reading.used}
        self.reserved = set()
        self.released = set()
        self.tables = [[] for _ in reading.blocks]
        self.used = {short for _, short, _ in reading.used}
        self.allowed = {address for first, last in reading.blocks for address in range(first, last + 1)} | self.used
        self.draws = {*reading.draws, *(random for _, _, random in reading.used)}
        self.seen = collections.Counter()

    def next(self) -> str:
        check(self.at < len(self.lines), "a report is missing")
        self.at += 1
        return self.lines[self.at - 1]

    def check_all(self) -> None:
        """Each line of the script has its report, and there is nothing else."""
        for line in self.reading.lines:
            words = line.split(" ")
            if words[0] == "show":
                self.check_show()
            elif words[0] == "run":
                self.check_run(int(words[1]))
            else:
                self.check_line(line, words)
        check(self.at == len(self.lines), "there are more reports than lines")

    def check_line(self, line: str, words: list[str]) -> None:
        """The report of a line that has one."""
        name = " ".join(words[:2]) if words[0] == "pump" else words[0]
        report = self.next()
        match = (SITE if self.reading.is_site else BENCH)[name].fullmatch(report)
        check(match, f"no report of '{line}': {report}")
        named = match.groupdict()
        if named.get("c"):
            check(named["c"] == words[1], f"the report of another controller than '{line}': {report}")
        if named.get("f"):
            check(named["f"] == words[-1].upper(), f"the report of another frame than '{line}': {report}")
        self.count(report)

    def check_run(self, rounds: int) -> None:
        """The reports of rounds, and how many frames were sent in them."""
        while not (match := RAN.fullmatch(report := self.next())):
            check(IN_ROUNDS.fullmatch(report) or END_OF_ROUNDS.fullmatch(report), f"no report of a run: {report}")
            self.count(report)
            if report.startswith("refused"):
                match = RAN.fullmatch(report := self.next())
                check(match, f"something stands after a refusal in a run: {report}")
                break
        check(int(match.group(1)) <= rounds, f"more frames than rounds: {report}")
        self.seen["frames in runs"] += int(match.group(1))

    def count(self, report: str) -> None:
        """Counts a report that tells how something ended."""
        words = report.split(" ")
        if words[0] == "refused":
            self.seen[report] += 1
        elif len(words) > 1 and words[1] in ("done", "halt"):
            self.seen[" ".join(words[1:])] += 1
        elif len(words) > 1 and words[1] == "commit":
            self.check_record(report, int(words[0][:-1]), words[2], int(words[3]), words[4])
            self.seen[" ".join(words[1:3])] += 1

    def check_record(self, report: str, controller: int, kind: str, address: int, random: str) -> None:
        """A record has a number that was to be drawn, and an address that its controller may keep."""
        check(controller < len(self.reading.blocks), f"no such controller: {report}")
        first, last = self.reading.blocks[controller]
        check(kind == "enrol" or first <= address <= last, f"an address of another block: {report}")
        check(address in self.allowed, f"an address of no block: {report}")
        check(kind != "reserve" or address not in self.used, f"an address that used gear have: {report}")
        check(random in self.draws, f"a number that was not to be drawn: {report}")
        if kind == "reserve":
            self.reserved.add((controller, address, random))
        if kind == "release":
            check((controller, address, random) in self.reserved, f"a release of what was not reserved: {report}")
            self.released.add((str(address), random))

    def check_show(self) -> None:
        """All gear in order, and all tables; on a site what is promised of them."""
        gear = []
        for number in range(self.reading.gear):
            line = self.next()
            match = GEAR.fullmatch(line)
            check(match and int(match.group(1)) == number, f"not gear {number}: {line}")
            gear.append((line, match.group(4), match.group(6)))
        if not self.reading.is_site:
            return
        named = self.named(gear)
        for number in range(len(self.reading.blocks)):
            self.check_table(number, named)
        self.seen["shows of a site"] += 1

    def named(self, gear: list[tuple[str, str, str]]) -> dict[str, str]:
        """The random address of the gear at each short address. Who had an address in an earlier show still has it."""
        named = {}
        randoms = set()
        for number, (line, random, short) in enumerate(gear):
            check(random == "FFFFFF" or random in self.draws, f"a number that was not to be drawn: {line}")
            check(random == "FFFFFF" or random not in randoms, f"two gear with one random address: {line}")
            randoms.add(random)
            check(self.holders.get(number, (random, short)) == (random, short), f"another address than before: {line}")
            if short == "-":
                continue
            check(int(short) in self.allowed, f"an address of no block: {line}")
            check(short not in named, f"two gear with one address: {line}")
            check(random != "FFFFFF", f"an address without a random address: {line}")
            check((short, random) not in self.released, f"an address that was released for this gear: {line}")
            named[short] = random
            self.holders[number] = (random, short)
        return named

    def check_table(self, number: int, named: dict[str, str]) -> None:
        """Each entry names the gear that has its address, so no two tables disagree; and no entry is ever lost."""
        line = self.next()
        match = TABLE.fullmatch(line)
        check(match and int(match.group(1)) == number, f"not table {number}: {line}")
        entries = match.group(2).split()
        for entry in entries:
            short, random = entry.split("=")
            check(named.get(short) == random, f"the gear at {short} is another: {line}")
        check(len(set(entries)) == len(entries), f"an entry stands twice: {line}")
        before = self.tables[number]
        check(entries[: len(before)] == before, f"an entry of an earlier table is gone: {line}")
        self.tables[number] = entries

    def totals(self) -> collections.Counter[str]:
        """What was seen, with the addresses that gear had in the last show."""
        self.seen["runs of a site" if self.reading.is_site else "other runs"] += 1
        if self.reading.is_site:
            entries = sum(map(len, self.tables))
            self.seen["gear with an address"] += len(self.holders)
            self.seen["entries of tables"] += entries
            self.seen["runs with an addressed gear"] += bool(self.holders)
            self.seen["runs with an entry in a table"] += bool(entries)
            self.seen["runs in which all gear have addresses"] += len(self.holders) == self.reading.gear
        return self.seen


def checked(reading: script_forms.Reading, report: str) -> collections.Counter[str]:
    """What was seen in a report that answers its script and agrees with itself."""
    lines = Report(reading, report)
    lines.check_all()
    return lines.totals()
