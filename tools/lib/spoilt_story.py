"""Stories that are spoilt at random: their texts are markup, and their lines are broken. For checks of what reads stories."""

import json
import random
import typing

from lib import made_story

# Texts that would make an element, run a script, or end what they stand in.
MARKUP = (
    "<script>window.hit=1</script>", "</script><script>window.hit=1</script>", "<img src=x onerror=window.hit=1>", "<!--", "-->", "<!--<script>",
    "<svg onload=window.hit=1>", "<iframe srcdoc='<script>parent.hit=1</script>'></iframe>", "javascript:window.hit=1", "<h6>", "</h1>", "&lt;b&gt;",
    "\"'><object data=x>", "{{constructor}}", "${window.hit=1}", "\u202e\u2028\x00", "\ud800", "[{command}]{=}", "__proto__", "constructor", "\\u003c",
)
# The members that may be any text.
FREE = ("command", "other_command", "text", "finding", "report", "script")
VALUES: tuple[typing.Any, ...] = (
    None, True, -1, 0, 1.5, 1e300, 128, 1 << 60, "", "FF", [], {}, [None], [[]], [{}], {"gear": 0}, [{"gear": 1e9}], [{"gear": 0, "short": 99}],
    [{"gear": 127, "power": "on", "state": "<h6>", "random": "<h6>", "search": "zz", "short": None}],
)


def marked(dice: random.Random, line: made_story.Line) -> made_story.Line:
    """A line some of whose texts are markup, as far as they may be any text."""
    return {name: dice.choice(MARKUP) + dice.choice(MARKUP) if name in FREE and dice.random() < 0.3 else it for name, it in line.items()}


def broken(dice: random.Random, line: made_story.Line) -> str:
    """A line that is broken somehow."""
    names = list(line)
    how = dice.randrange(6)
    if how == 0 and names:
        del line[dice.choice(names)]
    elif how == 1 and names:
        line[dice.choice(names)] = dice.choice(VALUES)
    elif how == 2:
        line[dice.choice(MARKUP)] = dice.choice(VALUES)
    text = json.dumps(line, ensure_ascii=dice.random() < 0.5, separators=(",", ":"))
    at = dice.randrange(len(text))
    if how == 3:
        return text[:at] + dice.choice(("", '"', "}", "\\", "\x00", "\ufeff", "\n", "[" * 20_000, *MARKUP)) + text[at + 1 :]
    return text[:at] if how == 4 else text


def spoilt(seed: int) -> bytes:
    """A spoilt story."""
    dice = random.Random(seed)
    lines = made_story.made(dice.randrange(120), seed, dice.choice((1, 3, 40)), dice.randrange(5))
    share, is_marked, is_ascii, texts = dice.choice((0, 0, 0.02)), dice.random() < 0.8, dice.random() < 0.8, []
    for line in lines:
        it = marked(dice, line) if is_marked else line
        texts.append(broken(dice, it) if dice.random() < share else json.dumps(it, ensure_ascii=is_ascii, separators=(",", ":")))
    for _ in range(dice.choice((0, 0, 1))):
        at, other = dice.randrange(len(texts)), dice.randrange(len(texts))
        texts[at], texts[other] = texts[other], texts[at]
    text = "".join(f"{it}\n" for it in texts)
    text = text[: dice.randrange(len(text))] if dice.random() < 0.2 else text
    return text.encode("utf-8", "surrogatepass")
