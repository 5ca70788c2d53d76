"""Scripts for `dali_sim replay` that are made at random, and what may be changed in one."""

import random

from lib import script_forms, site_script

NUMBERS = "0 1 2 3 4 5 62 63 64 65 126 127 128 129 255 256 999999 1000000 1000001 00 01 -1 +1 4294967296".split()
FRAMES = "A100 A500 A5FF A501 A700 A900 AB00 B100 B1FF B3FF B5FE B701 B7FF B700 B901 BB00 FE80 fe80 0000 FFFF".split()
RANDOMS = "000000 000001 123456 7FFFFF 800000 FFFFFD FFFFFE FFFFFF abcdef".split()
BLOCKS = "0-0 0-3 3-0 4-7 0-63 62-63 63-63 0-64 60-255 0-256 1-".split()
LISTS = "- 0 1 0,1 0,0 1,2,3 127 128 0, ,0 0,,1".split()
NAMES = "bench site draws used frame go survey store fail pump lapse arc foreign down up run off on expire quiet show".split()
WORDS = [*NUMBERS, *FRAMES, *RANDOMS, *BLOCKS, *LISTS, *NAMES, *site_script.FRAME_TROUBLES, "", "12345", "#"]
BYTES = b" \n\t\r\0#-,0F:\x7f\x80\xff"
EVENTS = 65_536
CHANCES = (0.002, 0.01, 0.05, 0.2)


def frame(draw: random.Random) -> str:
    return draw.choice(FRAMES) if draw.random() < 0.7 else f"{draw.randrange(0x10000):04X}"


def line_of_both(draw: random.Random, gear: int) -> str:
    name = draw.choice(("off", "on", "expire", "quiet", "show"))
    return name if name in ("quiet", "show") else f"{name} {draw.randrange(gear + 1)}"


def bench_line(draw: random.Random, gear: int) -> str:
    return f"frame {frame(draw)}" if draw.random() < 0.8 else line_of_both(draw, gear)


def pump_line(draw: random.Random, gear: int) -> str:
    trouble = draw.choice((None, None, None, *site_script.FRAME_TROUBLES))
    if trouble == "destroyed":
        takers = [str(g) for g in range(gear) if draw.random() < 0.5]
        return f"pump destroyed {','.join(takers) or '-'}"
    return f"pump {trouble}" if trouble else "pump"


def site_line(draw: random.Random, gear: int, controllers: int) -> str:
    kind = draw.random()
    controller = draw.randrange(controllers + 1) if draw.random() < 0.05 else draw.randrange(controllers)
    if kind < 0.3:
        return f"go {controller}"
    if kind < 0.6:
        return pump_line(draw, gear)
    if kind < 0.75:
        return f"run {draw.choice((0, 1, 2, 3, 5, 10, 30, 60, 100, 120, 1000))}"
    if kind < 0.8:
        return f"arc {controller} {frame(draw)}"
    if kind < 0.83:
        return f"foreign {frame(draw)}"
    if kind < 0.85:
        return "lapse"
    if kind < 0.95:
        return f"{draw.choice(('survey', 'store', 'fail', 'down', 'up'))} {controller}"
    return line_of_both(draw, gear)


def blocks(draw: random.Random, controllers: int) -> list[tuple[int, int]]:
    """Blocks that have no address in common, small or large."""
    ends = sorted(draw.sample(range(64), 2 * controllers))
    return [(ends[i], draw.choice((ends[i], ends[i + 1]))) for i in range(0, len(ends), 2)]


def drawn_site(draw: random.Random) -> str:
    """A script of a site, with some kinds of trouble."""
    gear = draw.choice((1, 1, 2, 2, 3, 4, 5, 8, 12, 16, 64 if draw.random() < 0.1 else 6))
    controllers = draw.choice((1, 1, 2, 2, 3, 4))
    named = list(site_script.TROUBLES)
    chances = {name: draw.choice(CHANCES) for name in draw.sample(named, draw.randrange(6))}
    chances["show"] = draw.choice((0.002, 0.02))
    if draw.random() < 0.5:
        chances["restart"] = draw.choice((0.002, 0.01))
    draws = draw.choice((site_script.usual_draws(gear), 2 * gear * controllers, draw.randrange(gear * controllers + 1)))
    rounds = draw.randrange(min(site_script.usual_rounds(gear, controllers), 1_000))
    spell, survey = draw.random() < 0.2, draw.random() < 0.5
    used = draw.choice((0, 0, 1, gear // 2, gear))
    made = site_script.Site(gear, blocks(draw, controllers), draw.random(), rounds, draws, chances, spell, survey, used)
    return site_script.script_of(made)


def used_line(draw: random.Random, gear: int) -> str:
    """The line of a used gear, which may be refused."""
    return script_forms.used_line(draw.randrange(gear + 1), draw.randrange(8), draw.randrange(script_forms.NO_RANDOM + 1))


def drawn_lines(draw: random.Random) -> str:
    """A script of a bench or a site whose lines are drawn one by one."""
    gear = draw.choice((1, 2, 3, 8))
    numbers = draw.sample(range(script_forms.NO_RANDOM), draw.choice((0, 1, 8, 64)))
    count = draw.randrange(200)
    used = [used_line(draw, gear) for _ in range(draw.choice((0, 0, 0, 1, 2)))]
    if draw.random() < 0.3:
        body = [bench_line(draw, gear) for _ in range(count)]
        return script_forms.bench_of(gear, numbers, used + body)
    controllers = draw.randrange(1, 5)
    named = blocks(draw, controllers)
    body = [site_line(draw, gear, controllers) for _ in range(count)]
    if draw.random() < 0.005:
        body = ["quiet"] * (EVENTS - draw.randrange(2 * count + 1)) + body
    return script_forms.site_of(gear, named, numbers, used + body)


def change_line(draw: random.Random, lines: list[str]) -> None:
    """One line is taken away, doubled, moved, put in or repeated, or all that follow it are."""
    at = draw.randrange(len(lines))
    kind = draw.randrange(8)
    if kind == 0:
        del lines[at]
    elif kind == 1:
        lines.insert(at, lines[at])
    elif kind == 2:
        other = draw.randrange(len(lines))
        lines[at], lines[other] = lines[other], lines[at]
    elif kind == 3:
        lines.insert(draw.randrange(len(lines)), lines.pop(at))
    elif kind == 4:
        lines[at:at] = [lines[at]] * draw.choice((2, 8, 64, 65))
    elif kind == 5 and at > 2:
        del lines[at:]
    else:
        made = bench_line(draw, 3) if any(line.startswith("bench") for line in lines) else site_line(draw, 3, 2)
        lines.insert(at, made)


def change_word(draw: random.Random, lines: list[str]) -> None:
    """One word of a line is taken away, doubled, exchanged with another, replaced or put in, or its number changes."""
    at = draw.randrange(len(lines) if draw.random() < 0.7 else min(len(lines), 2))
    words = lines[at].split(" ")
    word = draw.randrange(len(words))
    kind = draw.randrange(7)
    if kind == 0:
        del words[word]
    elif kind == 1:
        words.insert(word, words[word])
    elif kind == 2:
        other = draw.randrange(len(words))
        words[word], words[other] = words[other], words[word]
    elif kind == 3:
        words.insert(word, draw.choice(WORDS))
    elif kind == 4 and words[word].isdigit() and len(words[word]) < 4:
        words[word] = str(abs(int(words[word]) + draw.choice((-1, 1))))
    else:
        words[word] = draw.choice(WORDS)
    lines[at] = " ".join(words)


def change_byte(draw: random.Random, script: bytearray) -> None:
    """One byte is flipped, taken away, doubled, exchanged with the next one, replaced or put in."""
    at = draw.randrange(len(script))
    kind = draw.randrange(6)
    if kind == 0:
        script[at] ^= 1 << draw.randrange(8)
    elif kind == 1:
        del script[at]
    elif kind == 2:
        script.insert(at, script[at])
    elif kind == 3:
        script[at : at + 2] = script[at : at + 2][::-1]
    elif kind == 4:
        script[at] = draw.choice(BYTES)
    else:
        script.insert(at, draw.choice(BYTES))


def changed(draw: random.Random, script: str) -> bytes:
    """A script with a few changes, of lines, of words or of bytes; sometimes with none."""
    kind = draw.choice(("none", "none", "lines", "lines", "lines", "words", "bytes"))
    if kind == "none":
        return script.encode()
    times = draw.choice((1, 1, 2, 4, 8))
    if kind == "bytes":
        raw = bytearray(script.encode())
        for _ in range(times):
            if raw:
                change_byte(draw, raw)
        return bytes(raw)
    lines = script.split("\n")
    for _ in range(times):
        if lines:
            (change_line if kind == "lines" else change_word)(draw, lines)
    return "\n".join(lines).encode()


def drawn_script(draw: random.Random, examples: list[str]) -> bytes:
    """A script for one run: an example, a site or lines drawn one by one, with a few changes or none."""
    kind = draw.random()
    if kind < 0.3:
        script = draw.choice(examples)
    elif kind < 0.8:
        script = drawn_site(draw)
    else:
        script = drawn_lines(draw)
    return changed(draw, script)
