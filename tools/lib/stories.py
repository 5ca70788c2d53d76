"""Stories that are kept as files: scripts, with what is reported behind each line.

    == a search ends            begins a story; behind its name may stand the form in which it is told, [json] or [story]
    -- why                      a comment
    site 1 0-3                  a line of the script, in which \\n \\r \\t \\xHH and \\s (a space at an end) are what they say
    go 0 > 0: put 3 A100        and the report behind it, of which a line may have several
    > ran 3                     and further reports of the line above
    *7 frame A500 > A500 yes    such a line, seven times
    draw ! line 2: bad line     not a line of the script, but how the script ends if this is its next one, or if it ends so (\\e)
    :: one search               begins a part, which no story is
    + 16 one search             the part, sixteen times
    frame A100 ~ "told"         a text in what is told of the line
    ~ "told"                    a text in what is told
    {"line":3                   a line that is told; if there are any, each line of its kind stands there

tests/dali_stories plays them all in one run. What a person wrote stays as it is when they are written anew.
"""

import dataclasses
import json
import pathlib
import re
import subprocess

from lib import ROOT

FILES = ROOT / "tests/dali_stories/stories"
MARKS = {"n": "\n", "r": "\r", "t": "\t", "s": " ", "\\": "\\", "e": ""}
# How many columns a line with several reports may have, and how many seconds all stories may take.
WIDTH, SECONDS = 118, 600


@dataclasses.dataclass
class Line:
    """A line of a file, and what stands behind it."""

    at: int
    script: str
    count: int
    reports: list[str]
    said: str | None
    texts: list[str]


@dataclasses.dataclass
class Story:
    name: str
    form: str
    file: pathlib.Path
    lines: list[Line] = dataclasses.field(default_factory=list)
    texts: list[str] = dataclasses.field(default_factory=list)
    told: list[str] = dataclasses.field(default_factory=list)


def unescaped(text: str) -> str:
    """The text, of which bytes that are written as \\xHH make characters."""
    read = re.sub(r"\\(x..|.)", lambda it: chr(int(it[1][1:], 16)) if it[1][0] == "x" else MARKS[it[1]], text)
    return re.sub(r"[\x80-\xff]+", lambda it: it[0].encode("latin-1").decode(), read)


def read_line(text: str, at: int) -> Line:
    script, mark, rest = re.fullmatch(r"(.*?)(?: ([>!~])(?: (.*))?)?", text).groups()
    count, script = re.fullmatch(r"(?:\*(\d+) )?(.*)", script).groups()
    behind = {mark: (rest or "").split(f" {mark} ") if mark else []}
    return Line(at, script, int(count or 1), behind.get(">", []), rest or "" if mark == "!" else None, behind.get("~", []))


def read_file(file: pathlib.Path) -> list[Story]:
    """The stories of a file."""
    found, parts, it = [], {}, None
    for at, text in enumerate(file.read_text().split("\n")):
        begin, _, rest = text.partition(" ")
        if begin == "==":
            name, form = re.fullmatch(r"(.*?)(?: \[(json|story)\])?", rest).groups()
            it = Story(name, form or "text", file)
            found.append(it)
        elif begin == "::":
            it = parts[rest] = Story(rest, "text", file)
        elif begin == "+":
            count, name = re.fullmatch(r"(?:(\d+) )?(.*)", rest).groups()
            it.lines += parts[name].lines * int(count or 1)
        elif begin == ">":
            it.lines[-1].reports += rest.split(" > ")
        elif begin == "~":
            it.texts.append(rest)
        elif text.startswith("{"):
            it.told.append(text)
        elif text and begin != "--":
            it.lines.append(read_line(text, at))
    return found


@dataclasses.dataclass
class Case:
    """A script that is played, and how it is to end."""

    story: Story
    lines: list[Line]
    end: Line | None

    def given(self, form: str = "") -> str:
        """The script as the program reads it."""
        text = "".join("".join(f"*{it.count} " * (it.count > 1) + part + "\n" for part in unescaped(it.script).split("\n")) for it in self.lines)
        if self.end:
            is_open = self.end.script.endswith("\\e")
            text += unescaped(self.end.script) + ("\n%%\n" if is_open else "\nquiet\n")
        return f"%% {form or self.story.form}\n{text}"

    def wrong(self, end: str, told: list[str]) -> str:
        """What is wrong with what was told, or nothing."""
        wanted = f"1 {self.end.said}" if self.end else "0"
        if end != wanted:
            return f"ends with {end!r}, and {wanted!r} is wanted"
        if self.story.form == "text":
            reports = [(report, it.count) for it in self.lines for report in it.reports]
            return differs(told, once_each(reports))
        if self.story.form == "json":
            return differs(told, self.story.told)
        kinds = tuple({it[: it.index(":")] for it in self.story.told})
        by_line = split_by_line(told)
        missing = [it for it in self.story.texts if not any(it in line for line in told)]
        for number, it in numbered(self.lines):
            missing += [text for text in it.texts if not any(text in line for line in by_line.get(number, []))]
        if missing:
            return f"has no {missing[0]!r}"
        return differs([it for it in told if it.startswith(kinds)], self.story.told) if kinds else ""


def once_each(rows: list[tuple[str, int]]) -> list[str]:
    """Reports, with those that are the same in a row as one line, as the program writes them."""
    merged = []
    for text, count in rows:
        if merged and merged[-1][0] == text:
            merged[-1][1] += count
        else:
            merged.append([text, count])
    return [f"*{count} {text}" if count > 1 else text for text, count in merged]


def differs(was: list[str], wanted: list[str]) -> str:
    for at, (one, other) in enumerate(zip(was + ["nothing"], wanted + ["nothing"])):
        if one != other:
            return f"tells {one!r} at {at}, and {other!r} is wanted"
    return "" if len(was) == len(wanted) else "tells more or less"


def split_by_line(told: list[str]) -> dict[int, list[str]]:
    """What is told of each line of a script, by its number."""
    found, number = {}, 0
    for it in told:
        number = json.loads(it).get("line", number)
        found.setdefault(number, []).append(it)
    return found


def numbered(lines: list[Line]) -> list[tuple[int, Line]]:
    """Lines with the numbers that they have in the script: of several the last one."""
    found, number = [], 0
    for it in lines:
        number += it.count * (unescaped(it.script).count("\n") + 1)
        found.append((number, it))
    return found


def cases_of(story: Story) -> list[Case]:
    whole = [it for it in story.lines if it.said is None]
    ends = [Case(story, [one for one in story.lines[:at] if one.said is None], it) for at, it in enumerate(story.lines) if it.said is not None]
    return ends + ([Case(story, whole, None)] if not ends or any(it.reports for it in whole) and len(whole) > 2 else [])


def all_cases() -> list[Case]:
    return [case for file in sorted(FILES.glob("*.story")) for story in read_file(file) for case in cases_of(story)]


def played(folder: pathlib.Path, scripts: list[str]) -> tuple[str, str]:
    """What the program in this folder writes of scripts, and what is said beside it. It is compiled with checks, and nothing is proved."""
    done = subprocess.run(["rt", "try", "--steps", "1", "--seconds", str(SECONDS)], cwd=folder, input="".join(scripts).encode(), capture_output=True)
    return done.stdout.decode(), done.stderr.decode(errors="replace")


def read_told(written: str, count: int) -> list[tuple[str, list[str]]]:
    """How each case ended, and what was told of it."""
    parts = [it.split("\n") for it in re.split(r"^%% ", written, flags=re.M)[1:]]
    if len(parts) != count:
        raise ValueError(f"{len(parts)} scripts of {count} were played")
    return [(end, lines[:-1]) for end, *lines in parts]


def packed(script: str, reports: list[str]) -> list[str]:
    """A line with its reports, in as many lines as they need."""
    lines = [script]
    for it in reports:
        lines[-1:] = [f"{lines[-1]} > {it}"] if len(lines[-1]) + 3 + len(it) <= WIDTH else [lines[-1], f"> {it}"]
    return lines


def written_anew(case: Case, text: list[str], end: str, told: list[str]) -> None:
    """Changes the lines of a file by what was told, and leaves those of a person. A script that is told as texts is told as a story here."""
    if case.end:
        text[case.end.at] = [f"{case.end.script} ! {end.partition(' ')[2]}"]
    elif case.story.form == "text":
        by_line = split_by_line(told)
        for number, it in numbered(case.lines):
            reports = json.loads(by_line[number][0])["report"].splitlines() if number in by_line else []
            text[it.at] = packed(f"*{it.count} " * (it.count > 1) + it.script, reports)
    elif case.story.told:
        first = [at for at, it in enumerate(text) if it == [case.story.told[0]]][0]
        kinds = tuple({it[: it.index(":")] for it in case.story.told})
        text[first : first + len(case.story.told)] = [[it for it in told if it.startswith(kinds)]] + [[]] * (len(case.story.told) - 1)


def write(wrong: list[tuple[Case, str, list[str]]]) -> None:
    """Writes the files of these cases anew, each with how it ended and what was told."""
    for file in {case.story.file for case, _, _ in wrong}:
        text = [[it] for it in file.read_text().split("\n")]
        texts = [it for it in wrong if it[0].story.file == file]
        for case, end, told in texts:
            for it in case.lines if not case.end and case.story.form == "text" else []:
                for at in range(it.at + 1, len(text)):
                    if not text[at] or not text[at][0].startswith("> "):
                        break
                    text[at] = []
            written_anew(case, text, end, told)
        file.write_text("\n".join(line for lines in text for line in lines))


def run(folder: pathlib.Path, is_written: bool) -> tuple[int, int, str]:
    """How many cases are right and wrong, and what is wrong. Those that are wrong may be written anew."""
    cases = all_cases()
    written, said = played(folder, [it.given() for it in cases])
    try:
        told = read_told(written, len(cases))
    except ValueError as error:
        return 0, 1, f"stories: {error}\n{said}"
    wrong = [(case, end, lines, why) for case, (end, lines) in zip(cases, told) if (why := case.wrong(end, lines))]
    if is_written and wrong:
        forms = ["story" if case.story.form == "text" and not case.end else "" for case, *_ in wrong]
        anew, _ = played(folder, [case.given(form) for (case, *_), form in zip(wrong, forms)])
        write([(case, *it) for (case, *_), it in zip(wrong, read_told(anew, len(wrong)))])
    lines = [f"{case.story.file.name}: {case.story.name}{f', {case.end.script!r}' if case.end else ''}: {why}\n" for case, _, _, why in wrong]
    return len(cases) - len(wrong), len(wrong), "".join(lines)
