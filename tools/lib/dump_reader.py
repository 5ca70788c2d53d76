"""Reads a value change dump of this project back, as a receiver would: by the levels of its wire alone."""

import bisect
import re

# How many µs a half bit takes, and half of one.
HALF, MIDDLE = 417, 208
# What two half bits say: low and high is 1.
BITS = {(False, True): "1", (True, False): "0"}


def values(text: str, code: str) -> list[str]:
    """The values that a variable of text takes, without those of the head."""
    return re.findall(rf"^s(.*) {code}$", text, re.M)[1:]


def frames(text: str) -> list[str]:
    """The frames and answers on the bus in hexadecimal digits, each of which has as many bits as its digits say; `damaged` if it is none."""
    times, levels, now = [], [], 0
    for line in text.splitlines():
        if line.startswith("#"):
            now, before = int(line[1:]), now
            if now < before:
                raise ValueError(f"time goes back to {now}")
        elif line in ("0!", "1!"):
            times.append(now)
            levels.append(line == "1!")
    found, over = [], -1
    for begun, is_high in zip(times, levels, strict=True):
        if not is_high and begun > over:
            bits, over = bits_from(times, levels, begun)
            found.append("damaged" if "?" in bits or bits[:1] != "1" else f"{int(bits[1:], 2):0{len(bits) // 4}X}")
    return found


def bits_from(times: list[int], levels: list[bool], begun: int) -> tuple[str, int]:
    """The bits of what begins at a time, `?` for what is none, and the time at which it is over."""
    bits, at = "", begun + MIDDLE
    while (pair := tuple(levels[bisect.bisect_right(times, it) - 1] for it in (at, at + HALF))) != (True, True):
        bits, at = bits + BITS.get(pair, "?"), at + 2 * HALF
    return bits, at
