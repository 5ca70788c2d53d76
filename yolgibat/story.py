"""The story of a run, lines of JSON (docs/FORMAT.md, 'Stories'): reads and judges one, and says what an event is in words."""

import collections.abc
import functools
import json
import re
import typing

from yolgibat import ROOT

# What a member of a line may be stands here, and nowhere else.
SCHEMA = ROOT / "docs/story.schema.json"
# The words stand in the viewer, as templates.
VIEWER = ROOT / "yolgibat/viewer.html"
# How many bytes a story has at most.
LONGEST = 200_000_000
# The sources that know all of a run, and the members that a line of theirs lacks all the same if they do not hold.
KNOWING, IF_THEY_HOLD = ("script", "bench"), ("time", "trouble", "left_alone", "found")
# The kinds of lines, by their first member; of an event the member `kind` says more, and of one that acted `order`.
KINDS = {"story": "head", "line": "line", "event": "event", "finding": "finding", "end": "end"}
# The types of JSON that are no list and no object.
SCALARS = {"string": str, "integer": int, "boolean": bool, "null": type(None)}
# How many items of a list stand in words.
FIRST_ITEMS = 8

Line = dict[str, typing.Any]
# A test of a value: what is wrong with it, or None.
Test = collections.abc.Callable[[typing.Any], str | None]


class Bad(Exception):
    """A story that is none.

    line  the number of the line, from 1
    why   what is wrong with it
    """

    def __init__(self, line: int, why: str) -> None:
        super().__init__(f"line {line}: {why}")
        self.line, self.why = line, why


class Story(typing.NamedTuple):
    """A story that was read.

    head   its first line
    lines  all lines between the first and the last one: lines of the script, events and findings
    end    its last line; None if the story is cut off, or its run goes on
    """

    head: Line
    lines: list[Line]
    end: Line | None

    def events(self) -> list[Line]:
        return [it for it in self.lines if "event" in it and "finding" not in it]

    def findings(self) -> list[Line]:
        return [it for it in self.lines if "finding" in it]


# What a line may be.


@functools.cache
def definitions() -> dict[str, typing.Any]:
    return json.loads(SCHEMA.read_text())["$defs"]


def shown(value: object) -> str:
    """A value for a message: its first characters."""
    text = json.dumps(value)
    return text if len(text) <= 40 else f"{text[:40]}.."


def test_of_scalar(schema: Line) -> Test:
    """The test of a value that is no list and no object."""
    kinds = schema["type"] if isinstance(schema["type"], list) else [schema["type"]]
    types = {SCALARS[it] for it in kinds}
    least, most = schema.get("minimum", 0), schema.get("maximum", float("inf"))
    pattern = re.compile(schema["pattern"]) if "pattern" in schema else None
    wanted = schema.get("description") or (f"a number from {least} to {most}" if "maximum" in schema else f"of type {kinds[0]}")

    def test(value: typing.Any) -> str | None:
        kind = type(value)
        is_right = kind in types and (kind is not int or least <= value <= most) and (kind is not str or not pattern or pattern.fullmatch(value))
        return None if is_right else f"is {shown(value)}, and not {wanted}"

    return test


def test_of_list(item: Test) -> Test:
    def test(value: typing.Any) -> str | None:
        if not isinstance(value, list):
            return f"is {shown(value)}, and no list"
        for at, it in enumerate(value):
            if why := item(it):
                return f"has an item {at} that {why}"
        return None

    return test


def test_of_object(required: frozenset[str], members: dict[str, Test]) -> Test:
    """The test of an object. A member that no test is for may be there."""

    def test(value: typing.Any) -> str | None:
        if not isinstance(value, dict):
            return f"is {shown(value)}, and no object"
        if not value.keys() >= required:
            return f"lacks {', '.join(f'`{it}`' for it in members if it in required and it not in value)}"
        for name, it in value.items():
            if name in members and (why := members[name](it)):
                return f"has a `{name}` that {why}"
        return None

    return test


def test_of_choice(choices: list[typing.Any]) -> Test:
    words = ", ".join(map(shown, choices))

    def test(value: typing.Any) -> str | None:
        if any(value == it and type(value) is type(it) for it in choices):
            return None
        return f"is {shown(value)}, and {'not' if len(choices) == 1 else 'none of'} {words}"

    return test


def test_of(schema: Line, is_whole: bool) -> Test:
    """The test of a value by its schema. Of a whole line no member may be lacking but those that hold only at times."""
    if "$ref" in schema:
        return test_of(definitions()[schema["$ref"].rpartition("/")[2]], False)
    if "const" in schema or "enum" in schema:
        return test_of_choice([schema["const"]] if "const" in schema else schema["enum"])
    if schema["type"] == "array":
        return test_of_list(test_of(schema["items"], False))
    if schema["type"] == "object":
        members = {name: test_of(it, False) for name, it in schema["properties"].items()}
        required = set(members) - set(IF_THEY_HOLD) if is_whole else set(schema["required"])
        return test_of_object(frozenset(required), members)
    return test_of_scalar(schema)


@functools.cache
def test_of_line(first: str, name: str, is_whole: bool) -> Test | None:
    """The test of a line by its first member and the name of its definition, or None if there is none."""
    found = definitions().get(name, {})
    return test_of(found, is_whole) if first in list(found.get("properties", ()))[:1] else None


# Reading.


class Reader:
    """What reads a story line by line, and judges it as it comes."""

    def __init__(self) -> None:
        self.number, self.bytes, self.head, self.end = 0, 0, None, None
        # How many events came, the last line of the script, and the last bit time and µs.
        self.events, self.script, self.before = 0, 0, {"bits": 0, "time": 0}

    def take(self, raw: bytes) -> Line:
        """The next line, with its line feed."""
        self.number += 1
        self.bytes += len(raw)
        if self.bytes > LONGEST:
            raise Bad(self.number, f"the story has more than {LONGEST} bytes")
        if self.end:
            raise Bad(self.number, "a line stands behind the end of the story")
        line = self.parsed(raw)
        kind = KINDS.get(next(iter(line), ""))
        if not kind:
            raise Bad(self.number, f"the first member is {shown(next(iter(line), None))}, and none of {', '.join(KINDS)}")
        if (kind == "head") != (self.number == 1):
            raise Bad(self.number, "a head stands here, and not in the first line" if kind == "head" else "the story has no head")
        self.judge(kind, line)
        return line

    def parsed(self, raw: bytes) -> Line:
        try:
            # What JSON has not, as NaN, is no number.
            line = json.loads(raw.decode("utf-8"), parse_constant=int)
        except UnicodeDecodeError:
            raise Bad(self.number, "this is no UTF-8") from None
        except (ValueError, RecursionError):
            raise Bad(self.number, "this is no JSON") from None
        if not isinstance(line, dict):
            raise Bad(self.number, f"{shown(line)} is no JSON object")
        return line

    def judge(self, kind: str, line: Line) -> None:
        """Whether a line is one of its kind, in its place."""
        name = kind
        if kind == "head" and line["story"] != 1:
            raise Bad(self.number, f"the story is of version {shown(line['story'])}, and this reads version 1")
        if kind == "event":
            name = f"acted-{line.get('order')}" if line.get("kind") == "acted" else str(line.get("kind"))
        source = line.get("source") if kind == "head" else self.head["source"]
        test = test_of_line(next(iter(line)), name, source in KNOWING and kind != "finding")
        if not test:
            raise Bad(self.number, f"there is no event {name}")
        if why := test(line):
            raise Bad(self.number, f"the {kind} {why}")
        self.place(kind, line)

    def place(self, kind: str, line: Line) -> None:
        """Whether a line stands in its place."""
        if kind == "head":
            self.head = line
        elif kind == "line":
            if line["line"] <= self.script:
                raise Bad(self.number, f"line {line['line']} of the script is told behind line {self.script}")
            self.script = line["line"]
        elif kind == "event":
            self.place_event(line)
        elif kind == "finding" and line["event"] >= self.events:
            raise Bad(self.number, f"the finding is about event {line['event']}, which is not told yet")
        elif kind == "end":
            self.end = line

    def place_event(self, line: Line) -> None:
        if line["event"] != self.events:
            raise Bad(self.number, f"event {line['event']} stands here, in the place of event {self.events}")
        self.events += 1
        for name, before in self.before.items():
            if line.get(name, before) < before:
                raise Bad(self.number, f"`{name}` goes back from {before} to {line[name]}")
            self.before[name] = line.get(name, before)


def read(raw: bytes) -> Story:
    """A story, as far as it goes; `Bad` if it is none. One that is cut off is told up to its last whole line."""
    *whole, rest = raw.split(b"\n")
    reader, lines = Reader(), []
    for it in whole:
        lines.append(reader.take(it + b"\n"))
    if not reader.head:
        raise Bad(1, "the story has no head")
    if rest and reader.end:
        raise Bad(reader.number + 1, "a line stands behind the end of the story")
    return Story(lines[0], lines[1:-1] if reader.end else lines[1:], reader.end)


# Words.


@functools.cache
def templates() -> dict[str, str]:
    """The templates of the viewer, by their keys."""
    return json.loads(re.search(r'<script type="application/json" id="words">(.*?)</script>', VIEWER.read_text(), re.S)[1])


@functools.cache
def parts(key: str) -> tuple[tuple[bool, tuple[str, ...]], ...]:
    """A template in its parts, each with whether it stands in brackets, and then text and names of members by turns."""
    found = re.findall(r"\[(.*?)\]|([^\[\]]+)", templates()[key])
    return tuple((bool(optional), tuple(re.split(r"\{(.*?)\}", optional or plain))) for optional, plain in found)


def written(key: str, members: Line, value: object = None) -> str:
    """What a template says with these members, and of this value."""
    text = ""
    for is_optional, part in parts(key):
        said = [in_words(name, members, value) for name in part[1::2]]
        if not (is_optional and None in said):
            text += "".join(before + ("?" if it is None else it) for before, it in zip(part[::2], [*said, ""], strict=True))
    return text


def in_words(name: str, members: Line, value: object) -> str | None:
    """What stands for a member, or None if it is lacking; of `=` the value itself."""
    if name == "=":
        return plain(value)
    if name not in members:
        return None
    it = members[name]
    if isinstance(it, list):
        return listed(name, it)
    key = f"{name}:{plain(it)}"
    key = key if key in templates() else f"{name}:*"
    return written(key, members, it) if key in templates() else plain(it)


def listed(name: str, items: list[typing.Any]) -> str | None:
    """A list in words, or None if it is empty and there are no words for that."""
    if not items:
        return written(f"{name}:empty", {}) if f"{name}:empty" in templates() else None
    said = [written(f"each:{name}", it if isinstance(it, dict) else {}, it) for it in items[:FIRST_ITEMS]]
    left = len(items) - FIRST_ITEMS
    return ", ".join(said) + (written("more", {}, left) if left > 0 else "")


def plain(value: object) -> str:
    """A value as it is."""
    return value if isinstance(value, str) else json.dumps(value)


def words(line: Line) -> str:
    """What an event or a finding is, in plain English."""
    kind = "finding" if "finding" in line else line["kind"]
    return written(kind if kind in templates() else "*", line)
