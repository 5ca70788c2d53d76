"""The log of a SQLite database as bytes: its transactions, and the parts of a frame (SQLite's file format, section 4)."""

import typing

# How many bytes the header of a log has, and that of a frame; and where their parts begin and end.
HEAD, FRAME = 32, 24
HEAD_PARTS = {"magic": (0, 4), "version": (4, 8), "size": (8, 12), "round": (12, 16), "salts": (16, 24), "sum": (24, 32)}
FRAME_PARTS = {"page": (0, 4), "mark": (4, 8), "salts": (8, 16), "sum": (16, 24)}
# The byte orders of a checksum, by the last byte of the magic number.
ORDERS: dict[int, typing.Literal["little", "big"]] = {0x82: "little", 0x83: "big"}
Sum = tuple[int, int]


def number(raw: bytes, at: int) -> int:
    return int.from_bytes(raw[at : at + 4])


def summed(start: Sum, raw: bytes, order: typing.Literal["little", "big"]) -> Sum:
    """The checksum of bytes behind another one."""
    first, second = start
    for at in range(0, len(raw), 8):
        first = first + int.from_bytes(raw[at : at + 4], order) + second & 0xFFFFFFFF
        second = second + int.from_bytes(raw[at + 4 : at + 8], order) + first & 0xFFFFFFFF
    return first, second


def frame_size(raw: bytes) -> int:
    """How many bytes a frame has, with its page."""
    return FRAME + number(raw, 8)


def transactions(raw: bytes) -> list[list[int]]:
    """The transactions that SQLite takes, each as the places at which its frames begin. Each frame has the salts of the
    header and its checksum, and the last one of a transaction has a mark."""
    order, size = ORDERS[raw[3]], frame_size(raw)
    before, found, frames = (number(raw, 24), number(raw, 28)), [], []
    for at in range(HEAD, len(raw) - size + 1, size):
        frame = raw[at : at + size]
        before = summed(summed(before, frame[:8], order), frame[FRAME:], order)
        if frame[8:16] != raw[16:24] or before != (number(frame, 16), number(frame, 20)):
            break
        frames.append(at)
        if number(frame, 4):
            found.append(frames)
            frames = []
    return found


def behind(raw: bytes, frames: list[int]) -> int:
    """Where the next frame begins behind those of a transaction."""
    return frames[-1] + frame_size(raw)
