"""A driver over a port that samples the bus: when it sends, what it tells, and what it finds of the port and the wiring.

All times are microseconds; those of the bus are from memory, as docs/VENDOR.md has them.
"""

import typing

import lines
from library import Library
from port import Port
from samples import DELAY, HALF, Samples, at_least, micros

RANDOMISE, PRESENT = b"\xA7\x00", b"\xFF\x91"
# How long the bus is at rest before a frame of each priority. The later frames of a transaction have priority 1.
SETTLING, LATER = {1: 13_500, 2: 14_900, 3: 16_300, 4: 17_900, 5: 19_500}, 1
# From the beginning of a pair's first frame to the end of its second; how long gear draw; how long a frame is.
PAIR, DRAW, FRAME = 100_000, 100_000, 34 * HALF
# How many half bits of a frame are sent, of which the last is high.
MOST_HALVES = 35
# How many samples stand before a frame, and how long is listened after it: until no answer may begin any more, and until one has ended.
LEAD, WINDOW, ANSWER = 8, 12_500, 24_000
# Any frame is low once in so long a time. It takes longer than the other, in which the driver does not listen.
NOTICE, DEAF = 1_250, 10_000
# A transfer that takes so much longer than the shortest of its length may have been paused: up to 80 gear read the same frame.
LATE = 60
# A first frame waits so long for the bus. A bus without power is low for so long.
PATIENCE, DEAD = 2_000_000, 500_000
# What is said of a bus that is low all the time, or that each transfer drives while it should leave it at rest.
LOW = "the bus has no power: it is low all the time. Or --inverted-in or --inverted-out is wrong"
PULLED = {False: "each transfer drives the bus low: --inverted-out is wrong", True: "each transfer drives the bus low: --inverted-out and --inverted-in are wrong"}
# What is said of silence. If both levels are wrong, the bus is low all the time, and the own frame is read back all the same.
NO_ANSWER = ": no gear answers. Or --inverted-in and --inverted-out are both wrong, as if one is given in place of the other"
# How many transfers a test of the port makes.
MANY = 50
# The least and the greatest length in bytes by which the clock is measured, besides those of frames; by which part it may be wrong.
SHORT, LONG, TRIES, PART = 32, 1056, 3, 100
# How often it is measured until it is refused.
ROUNDS = 10


def framed(halves: list[bool], is_question: bool, speed: int) -> Samples:
    """A frame as it is sent, of its first half bits, with the time after it in which is listened."""
    tail = (ANSWER if is_question else WINDOW) - HALF
    return Samples.of(halves[:MOST_HALVES], LEAD, at_least(tail, speed), speed)


class Ear:
    """Transfers, and what is known by them of the bus.

    until    until when was listened, at the earliest
    ended    when the last transfer ended, at the latest
    rest     how long the bus was high then, as far as was heard
    is_lost  whether another device sent since the last frame, or may have
    least    by how much transfers of each length took longer than their bits at least
    """

    def __init__(self, port: Port, speed: int, is_out_inverted: bool, is_in_inverted: bool) -> None:
        self.port, self.speed, self.inverted = port, speed, (is_out_inverted, is_in_inverted)
        self.until = self.ended = port.now() - DEAF
        self.rest, self.is_lost, self.dead, self.least, self.is_measured = 0, True, None, {}, False

    def exchange(self, out: Samples) -> tuple[Samples, int]:
        """What is heard while these samples are sent, and by how much that took longer than it ever took."""
        raw, begun, ended = self.port.transfer(out.packed(self.inverted[0]))
        heard, length = Samples.read(raw, self.inverted[1]), micros(out.count, self.speed)
        if self.is_measured and (ended - begun) * PART < length * (PART - 1):
            self.is_measured = False
            self.refuse_clock(self.clock())
        is_deaf = ended - length - self.until > DEAF
        self.is_lost |= is_deaf
        known = 0 if is_deaf else self.rest + max(begun - self.ended, 0)
        self.rest = known + length if heard.is_quiet else micros(heard.rest, self.speed)
        self.until, self.ended = begun + length, ended
        over = ended - begun - length
        self.least[out.count] = min(over, self.least.get(out.count, over))
        self.check_power(heard, begun)
        return heard, over - self.least[out.count]

    def check_power(self, heard: Samples, begun: int) -> None:
        """Ends if for a long time each transfer found the bus low, or changed as soon as the port drove it."""
        is_pulled = len(heard.edges) == 1 and micros(heard.edges[0], self.speed) <= DELAY
        if not heard.is_dead and not is_pulled:
            self.dead = None
            return
        self.dead = begun if self.dead is None else self.dead
        if self.ended - self.dead > DEAD:
            raise lines.Fault(PULLED[heard.is_low] if is_pulled else LOW)

    def refuse_clock(self, found: float) -> typing.NoReturn:
        raise lines.Fault(f"the clock of {self.port.device} is {found:.0f} Hz, and not {self.speed}: fix it, or take another --speed")

    def idle(self, time: int) -> Samples:
        """A bus that is left at rest for so long."""
        return Samples.of([], 0, at_least(time, self.speed), self.speed)

    def listen(self, time: int) -> Samples:
        """What is heard in a transfer of so long a time."""
        heard, _ = self.exchange(self.idle(time))
        self.is_lost |= not heard.is_quiet
        return heard

    def took(self, count: int) -> int:
        """How long a transfer of so many samples takes at least."""
        late = min([self.exchange(Samples(count, False, []))[1] for _ in range(TRIES)])
        return micros(count, self.speed) + self.least[count] + late

    def rates(self) -> list[float]:
        """How many samples the port takes in a second, by transfers of unlike length, and by those of frames: some ports take another clock for
        short ones."""
        frames = [framed([False] * MOST_HALVES, it, self.speed).count for it in (False, True)]
        found = {count: self.took(count) for count in (8 * SHORT, 8 * LONG, *frames)}
        return [(more - less) * 1_000_000 / (found[more] - found[less]) for less, more in ((8 * SHORT, 8 * LONG), frames)]

    def clock(self) -> float:
        """How many samples the port takes in a second. It refuses a wrong clock, if it was found wrong each time."""
        for _ in range(ROUNDS):
            found = self.rates()
            wrong = [it for it in found if abs(it - self.speed) * PART > self.speed]
            if not wrong:
                self.is_lost = True
                return found[0]
        self.refuse_clock(wrong[0])

    def measure(self) -> float:
        """Measures the clock, and how long a transfer with a frame takes."""
        found, self.is_measured = self.clock(), True
        for is_question in (False, True):
            for _ in range(TRIES):
                self.exchange(framed([False] * MOST_HALVES, is_question, self.speed))
        return found

    def settle(self, priority: int, not_before: int) -> bool:
        """Waits for the bus, by listening. Whether it is free for a frame of this priority."""
        wanted, end = SETTLING[priority] + HALF, self.port.now() + PATIENCE
        while True:
            now = self.port.now()
            is_deaf = now - self.until > DEAF
            if now > end or priority == LATER and (self.is_lost or is_deaf):
                return False
            rest = 0 if is_deaf else self.rest + now - self.ended
            self.listen(max(wanted - rest, not_before - now, NOTICE))
            if self.rest >= wanted and not (priority == LATER and self.is_lost):
                return True


class Driver:
    """Sends frames, and tells what came of them.

    first  the first frame of a pair, and when it was begun at the earliest, or None
    slow   how many frames took much longer, one after the other
    """

    def __init__(self, ear: Ear, reader: Library) -> None:
        self.ear, self.reader, self.first, self.not_before, self.slow = ear, reader, None, 0, 0

    def wave(self, frame: bytes, is_question: bool) -> Samples:
        return framed(self.reader.levels(frame), is_question, self.ear.speed)

    def send(self, priority: int, frame: bytes, is_question: bool, half: int) -> str:
        """Sends a frame, and tells what came of it, as docs/ADAPTERS.md has it."""
        ear, (first, since), self.first = self.ear, self.first or (b"", 0), None
        if half == 2 and first != frame or not ear.settle(priority, self.not_before):
            return lines.LAPSED
        begun, wave = ear.port.now(), self.wave(frame, is_question)
        if half == 2 and begun + FRAME + micros(LEAD, ear.speed) - since > PAIR:
            return lines.LAPSED
        heard, late = ear.exchange(wave)
        ear.is_lost = False
        over = ear.ended - micros(wave.count - LEAD, ear.speed) + FRAME
        if half == 2 and frame == RANDOMISE:
            self.not_before = over + DRAW
        self.slow = self.slow + 1 if late * PART > micros(wave.count, ear.speed) else 0
        if self.slow == TRIES:
            ear.clock()
        if late > LATE or not heard.has(wave, ear.speed) or half == 2 and over - since > PAIR:
            return lines.DESTROYED
        told = self.told(heard, len(wave.edges), is_question)
        if half == 1 and told == lines.SILENCE:
            self.first = frame, begun
        return told

    def told(self, heard: Samples, own: int, is_question: bool) -> str:
        """What is told of the edges after so many that are the own frame's. Those after the time of an answer are of another device."""
        edges, last = heard.times(own, self.ear.speed)
        told, count = self.reader.heard(edges, last)
        self.ear.is_lost = count < len(edges)
        return told if is_question or told == lines.SILENCE else lines.DESTROYED


def rows(found: float, ear: Ear, driver: Driver) -> typing.Iterator[tuple[bool, str]]:
    """What a test of the wiring finds, each with whether it is right: the port, the bus at rest, one QUERY CONTROL GEAR PRESENT."""
    yield True, f"the clock is {found:.0f} Hz, and {ear.speed} were asked for"
    late = sum(ear.exchange(ear.idle(ANSWER))[1] > LATE for _ in range(MANY))
    yield late * 10 <= MANY, f"{late} of {MANY} transfers took {LATE} us more than the shortest: each is told as destroyed"
    heard = ear.listen(PAIR)
    yield heard.is_quiet, "the bus is at rest" if heard.is_quiet else f"the bus is not at rest: {len(heard.edges)} edges in 100 ms"
    if not ear.settle(max(SETTLING), 0):
        yield False, "the bus does not become free. Or --inverted-out is wrong"
        return
    wave = driver.wave(PRESENT, True)
    heard, _ = ear.exchange(wave)
    is_whole = heard.has(wave, ear.speed)
    yield is_whole, "the own frame is read back" if is_whole else f"the own frame is not read back: sent {wave.edges}, heard {heard.edges}"
    if is_whole:
        longer = [one - other for one, other in zip(heard.runs(wave), wave.runs(wave))]
        for what, them in (("low", longer[::2]), ("high", longer[1::2])):
            yield True, f"each {what} is {min(them)} to {max(them)} samples longer than it was sent"
        told = driver.told(heard, len(wave.edges), True)
        yield True, f"QUERY CONTROL GEAR PRESENT hears {told}{NO_ANSWER if told == lines.SILENCE else ''}"
