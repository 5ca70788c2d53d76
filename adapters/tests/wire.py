"""A simulated bus at the level of its edges: what drives it low, and when; control gear that read frames of it and answer.

Times are microseconds. Nothing here is code or a table of the receiver that reads this bus. A gear hears no low and no high that is
shorter than GLITCH: what it does with them the standard does not say.
"""

import argparse
import math
import random
import typing

import gear
from samples import Samples

HALF, STOP, GLITCH = 1_000_000 / 2400, 2400, 30
# What a gear takes as one half bit and as two; a longer low than the last is a loss of power.
ONE, TWO, POWER = (334, 500), (667, 1000), 45_000
BEGINS, PAIR, DRAW = (5_500, 10_500), 100_000, 100_000
# What a transfer takes beside its bits, and now and then; how long the program takes for its next line, and now and then.
OVERHEAD, SELDOM, PROGRAM, SLOW = (60, 90), (100, 500), (100, 800), (10_000, 30_000)


class Low(typing.NamedTuple):
    """The bus is driven low from one time to another."""

    begin: float
    end: float


def merged(lows: list[Low]) -> list[Low]:
    """Lows in order; those that meet are one."""
    found: list[Low] = []
    for low in sorted(lows):
        if found and low.begin <= found[-1].end:
            found[-1] = Low(found[-1].begin, max(found[-1].end, low.end))
        else:
            found.append(low)
    return found


def heard(lows: list[Low]) -> list[Low]:
    """Lows as a gear hears them."""
    joined: list[Low] = []
    for low in lows:
        if joined and low.begin - joined[-1].end < GLITCH:
            joined[-1] = Low(joined[-1].begin, low.end)
        else:
            joined.append(low)
    joined = [it for it in joined if it.end - it.begin >= GLITCH]
    while joined and joined[0].end - joined[0].begin < ONE[0]:
        joined.pop(0)
    return joined


def halves_of(time: float) -> int:
    """How many half bits a time between two edges is, 0 if none."""
    return next((number for number, (least, most) in enumerate((ONE, TWO), 1) if least <= time <= most), 0)


def bits_of(lows: list[Low]) -> list[int] | None:
    """The bits of a frame behind its start bit, or None."""
    halves: list[int] = []
    for low, after in zip(lows, [*lows[1:], None]):
        lasted, pause = halves_of(low.end - low.begin), halves_of(after.begin - low.end) if after else 1
        if not lasted or not pause:
            return None
        halves += lasted * [1] + pause * [0]
    if len(halves) % 2:
        halves.pop()
    pairs = list(zip(halves[::2], halves[1::2]))
    return [one for one, _ in pairs[1:]] if all(one != other for one, other in pairs) and pairs[0] == (1, 0) else None


def frame_lows(begin: float, bits: list[int], half: float) -> list[Low]:
    """The lows of a frame, with its start bit."""
    found: list[list[int]] = []
    for number, bit in enumerate([1, *bits]):
        at = 2 * number + (not bit)
        if found and found[-1][1] == at:
            found[-1][1] = at + 1
        else:
            found.append([at, at + 1])
    return [Low(begin + one * half, begin + other * half) for one, other in found]


def bits(data: bytes) -> list[int]:
    return [byte >> at & 1 for byte in data for at in reversed(range(8))]


class Trace:
    """The bus as a value change dump, or nothing where no file is named."""

    def __init__(self, file: str | None) -> None:
        self.file = open(file, "w", encoding="ascii") if file else None
        if self.file:
            self.file.write("$timescale 1 us $end\n$var wire 1 ! dali $end\n$enddefinitions $end\n#0\n1!\n")

    def low(self, low: Low) -> None:
        if self.file:
            self.file.write(f"#{round(low.begin)}\n0!\n#{round(low.end)}\n1!\n")

    def end(self, now: float) -> None:
        if self.file:
            self.file.write(f"#{round(now)}\n")
            self.file.close()


class Wire:
    """The bus, its gear and what else drives it. `chosen` has the chances, as add_words names them."""

    def __init__(self, bus: gear.Bus, chosen: argparse.Namespace, chance: random.Random) -> None:
        self.bus, self.chosen, self.chance, self.trace = bus, chosen, chance, Trace(chosen.trace)
        self.now, self.last, self.pending, self.past = 1_000_000.0, 1_000_000.0, [], []
        self.halves = [self.half_bit() for _ in bus.gear]
        # How much later than the bus the port hears it go low, and go high; and how much later the bus follows the port.
        self.delays = [chance.uniform(0, chosen.delay) for _ in range(4)]
        self.firsts, self.busy = {}, {}

    def half_bit(self) -> float:
        return HALF * (1 + self.chance.uniform(-1, 1) * self.chosen.bits / 100)

    def happens(self, often: float) -> bool:
        return often > 0 and self.chance.random() < often

    def drive(self, lows: list[Low]) -> None:
        """Drives the bus, each edge a little late."""
        most = self.chosen.slope
        self.pending += [Low(it.begin + self.chance.uniform(0, most), it.end + self.chance.uniform(0, most)) for it in lows]

    # What is beside the driver.

    def disturb(self, begin: float, end: float, own: float | None) -> None:
        """What else drives the bus in a transfer whose own frame, if there is one, begins at a time."""
        chosen, chance = self.chosen, self.chance
        if self.happens(chosen.foreign):
            self.drive(self.foreign(chance.uniform(begin, end)))
        if own is not None and self.happens(chosen.collide):
            self.drive(self.foreign(own + chance.uniform(-1000, 1000)))
        if self.happens(chosen.noise):
            at = chance.uniform(begin, end)
            self.pending.append(Low(at, at + chance.uniform(1, 150)))
        if self.happens(chosen.power):
            at = chance.uniform(begin, end)
            self.pending.append(Low(at, at + chance.uniform(50_000, 400_000)))

    def foreign(self, begin: float) -> list[Low]:
        """A frame of another device: direct arc power, or a frame of 24 bits."""
        first = 2 * self.chance.randrange(128)
        data = bytes((first, self.chance.randrange(256))) if self.chance.random() < 0.5 else self.chance.randbytes(3)
        return frame_lows(begin, bits(data), self.half_bit())

    # What gear do.

    def run(self, until: float) -> None:
        """Gear take each frame that has ended by a time, and drive their answers."""
        while self.pending:
            self.pending = merged(self.pending)
            count = next((at for at, (one, other) in enumerate(zip(self.pending, self.pending[1:]), 1) if other.begin - one.end >= STOP), len(self.pending))
            group = self.pending[:count]
            if group[-1].end + STOP > until:
                return
            self.pending = self.pending[count:]
            self.past += group
            for low in group:
                self.trace.low(low)
            self.take(group)

    def take(self, group: list[Low]) -> None:
        if any(it.end - it.begin > POWER for it in group):
            for it in self.bus.gear:
                it.state, it.search, it.half, it.dtr0 = gear.DISABLED, gear.MASK24, None, 0
            return
        lows = heard(group)
        found = bits_of(lows) if lows else None
        if found and len(found) == 16:
            number = int("".join(map(str, found)), 2)
            self.take_frame(number.to_bytes(2, "big"), lows[0].begin, lows[-1].end)

    def take_frame(self, frame: bytes, begin: float, end: float) -> None:
        """What gear do of a frame that lasted from one time to another."""
        together = self.chance.uniform(*BEGINS) if self.happens(self.chosen.together) else None
        for at, it in enumerate(self.bus.gear):
            if begin < self.busy.get(at, 0):
                continue
            if it.half and end - self.firsts[at] > PAIR:
                it.half = None
            is_second, was = it.half == frame, it.random
            answer = self.bus.answer(it, frame)
            self.firsts[at] = begin
            if is_second and it.random != was:
                self.busy[at] = end + self.chance.uniform(0, DRAW)
            if answer is not None:
                after = together + self.chance.uniform(0, 100) if together else self.chance.uniform(*BEGINS)
                self.drive(frame_lows(end + after, bits(bytes((answer,))), self.halves[at]))
        self.bus.keep()

    # The port.

    def transfer(self, out: Samples, speed: int) -> Samples:
        """What the port samples while it sends these."""
        tick = 1_000_000 / speed / self.chosen.clock * (9 / 8 if out.count < 8 * self.chosen.under else 1)
        begin = self.now + self.chance.uniform(*OVERHEAD)
        at, longer = out.count, 0.0
        if self.happens(self.chosen.pause):
            at, longer = self.chance.randrange(out.count), self.chance.uniform(0, self.chosen.pause_most)

        def moment(sample):
            return begin + sample * tick + (longer if sample >= at else 0)

        def sample(time):
            early = max(0, math.ceil((time - begin) / tick - 0.5))
            return min(out.count, early if early < at else max(at, math.ceil((time - begin - longer) / tick - 0.5)))

        edges = [0, *out.edges] if out.is_low else out.edges
        ends = [*edges, out.count] if len(edges) % 2 else edges
        lows = [Low(moment(one) + self.delays[0], moment(other) + self.delays[1]) for one, other in zip(ends[::2], ends[1::2])]
        end = moment(out.count)
        self.disturb(self.last, end, lows[0].begin if lows else None)
        self.drive(lows)
        self.run(end + self.chosen.delay)
        found = self.sampled(out.count, sample)
        self.past, self.last = [it for it in self.past if it.end > end - STOP], end
        self.now = end + (self.chance.uniform(*SELDOM) if self.happens(self.chosen.late) else 0)
        return found

    def sampled(self, count: int, sample: typing.Callable[[float], int]) -> Samples:
        """The samples of a transfer. `sample` is the first of them whose middle is not before a time, or `count`."""
        late, early = self.delays[2:]
        them = [Low(it.begin + late, it.end + early) for it in merged([*self.past, *self.pending])]
        edges = [sample(it) for low in merged([it for it in them if it.begin < it.end]) for it in low]
        edges = [it for at, it in enumerate(edges) if it != edges[at ^ 1]]
        is_low = sum(it <= 0 for it in edges) % 2 == 1
        return Samples(count, is_low, [it for it in edges if 0 < it < count])

    def gap(self) -> int:
        """How long the program takes for its next line."""
        return round(self.chance.uniform(*(SLOW if self.happens(self.chosen.slow) else PROGRAM)))

    def end(self) -> None:
        """What is still on the bus, and the end of the trace."""
        self.run(math.inf)
        self.trace.end(max(self.now, self.past[-1].end if self.past else 0) + STOP)


def add_words(options: argparse.ArgumentParser) -> None:
    """The words of a simulated bus on a command line."""
    percent, time, often = gear.measure(25), gear.measure(1000), gear.measure(1)
    for name, kind, usual, what in (
        ("bits", percent, 10, "by how much the bit times of a gear are off at most, in per cent"),
        ("slope", time, 15, "how late an edge of the bus is at most, in us"),
        ("delay", time, 15, "how late the transceiver is at most, at each edge of either direction, in us"),
        ("noise", often, 0.01, "the chance of each transfer that a pulse of 1 to 150 us drives the bus"),
        ("foreign", often, 0.01, "that another device begins a frame, at any moment"),
        ("collide", often, 0.002, "that it begins one within 1 ms of the own frame"),
        ("together", often, 0.3, "that all answers to a frame begin within 100 us"),
        ("power", often, 0.0002, "that the bus has no power for 50 to 400 ms"),
        ("pause", often, 0.002, "that the clock pauses once"),
        ("pause-most", gear.measure(100_000), 300, "how long at most, in us"),
        ("late", often, 0.005, "that a transfer ends 100 to 500 us late"),
        ("slow", often, 0.01, "that the program takes 10 to 30 ms for its next line"),
    ):
        options.add_argument(f"--{name}", type=kind, default=usual, metavar="X", help=f"{what} ({usual})")
    options.add_argument("--clock", type=gear.measure(2), default=1, metavar="X", help="the clock is so many times the one that is asked for")
    options.add_argument("--under", type=gear.measure(4096), default=0, metavar="N", help="transfers of fewer bytes take 9/8 of their time (0)")
    options.add_argument("--trace", metavar="FILE", help="the levels of the bus, as a value change dump")
