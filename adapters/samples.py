"""What a port shifts out and in that samples a bus at a fixed clock: samples, the edges between them, and their times.

A sample is a bit of a byte, the highest first. Times are whole microseconds, rounded from the beginning of a transfer, so that what is
handed on of two edges is the difference of two rounded times.
"""

import collections.abc
import re
import typing

# Half bits a second, and what one takes.
HALVES, HALF = 2400, 417
# How many samples a half bit has at least: so each bit that the standard allows is read, and what was sent is read back sharply enough.
LEAST = 11
# A low or a high of the own frame that is off by less is still one that gear take: 500 less 417.
OFF = 83
# An edge of the own frame is read back so much later at most.
DELAY = 65
RUN = re.compile("0+|1+")


def micros(count: int, speed: int) -> int:
    """How long so many samples take."""
    return (2_000_000 * count + speed) // (2 * speed)


def at_least(time: int, speed: int) -> int:
    """The fewest samples that take so long."""
    return -(-time * speed // 1_000_000)


def sharpness(speed: int) -> int:
    """By how many samples a low or a high of the own frame may differ from what was sent: each that gear may not take differs by more.
    Below 1 it cannot be told from one that begins between two samples."""
    return OFF * speed // 1_000_000 - 1


def refusal(speed: int) -> str | None:
    """Why this is no speed, or None."""
    if speed % HALVES:
        return f"a half bit has no whole number of samples: take a multiple of {HALVES}"
    return f"a half bit has fewer than {LEAST} samples at it" if speed < LEAST * HALVES else None


class Samples(typing.NamedTuple):
    """The samples of a transfer: how many, whether the bus is low at the first, and at which of them its level is another than before."""

    count: int
    is_low: bool
    edges: list[int]

    @classmethod
    def read(cls, raw: bytes, is_inverted: bool) -> typing.Self:
        """The samples that bytes have; 0 is low, or 1 where they are inverted."""
        bits = f"{int.from_bytes(raw, 'big'):0{8 * len(raw)}b}"
        return cls(len(bits), bits[0] == "01"[is_inverted], [it.start() for it in RUN.finditer(bits)][1:])

    @classmethod
    def of(cls, halves: collections.abc.Iterable[bool], lead: int, tail: int, speed: int) -> typing.Self:
        """The samples of half bits, true where the bus is low, with so many samples of a bus at rest before and after, and as many more as
        make whole bytes."""
        at, was, edges = lead, False, []
        for is_low in halves:
            if is_low != was:
                edges.append(at)
            at, was = at + speed // HALVES, is_low
        return cls(-(-(at + tail) // 8) * 8, False, edges)

    def packed(self, is_inverted: bool) -> bytes:
        """These as bytes."""
        bits, is_low = 0, self.is_low
        for begin, end in zip([0, *self.edges], [*self.edges, self.count]):
            if is_low == is_inverted:
                bits |= (1 << end - begin) - 1 << self.count - end
            is_low = not is_low
        return bits.to_bytes(self.count // 8, "big")

    @property
    def is_quiet(self) -> bool:
        """Whether the bus is high all the time."""
        return not self.is_low and not self.edges

    @property
    def is_dead(self) -> bool:
        """Whether it is low all the time."""
        return self.is_low and not self.edges

    @property
    def rest(self) -> int:
        """For how many samples it is high at the end."""
        if self.is_low != (len(self.edges) % 2 == 1):
            return 0
        return self.count - (self.edges[-1] if self.edges else 0)

    def times(self, first: int, speed: int) -> tuple[list[tuple[bool, int]], int]:
        """Of the edges from this one on whether the bus is low then, and the time since the edge before. And the time after the last one."""
        moments = [micros(it, speed) for it in [*self.edges[first - 1 :], self.count]]
        passed = [later - earlier for earlier, later in zip(moments, moments[1:])]
        return [(self.is_low != (at % 2 == 0), it) for at, it in enumerate(passed[:-1], first)], passed[-1]

    def runs(self, sent: typing.Self) -> list[int]:
        """How many samples each low and each high of a frame took as it was heard, that was sent so."""
        own = self.edges[: len(sent.edges)]
        return [later - earlier for earlier, later in zip(own, own[1:])]

    def has(self, sent: typing.Self, speed: int) -> bool:
        """Whether what was sent is what is heard first: no other edge, each not earlier and not much later, and each low and high as long."""
        most, off = int(DELAY * speed / 1_000_000 + 1), sharpness(speed)
        if self.is_low or len(self.edges) < len(sent.edges):
            return False
        late = [heard - own for heard, own in zip(self.edges, sent.edges)]
        return all(0 <= it <= most for it in late) and all(abs(one - other) <= off for one, other in zip(late, late[1:]))
