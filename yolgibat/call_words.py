"""What is wrong with the words of a call of a program, by its help texts: so a bad word is refused before anything is built."""

import difflib
import os
import re
import typing

from yolgibat import ROOT

HELP = ROOT / "yolgibat/help"
BAD_WORD, NO_RECORDS = 2, 5
# The list of commands in a help, and each of them.
LISTED = re.compile(r"^(?:Commands|The launcher .*):\n((?:  .*\n)+)", re.M)
COMMAND = re.compile(r"^  (\w+) +[A-Z]", re.M)
# The usage of a command: the options that it wants, and its other words, some of which may be left out or be there several times.
USAGE, WANTED, PLACE = re.compile(r"^Usage: .*$", re.M), re.compile(r"(--[\w-]+) <\w+>"), re.compile(r"([<[])(\w+)[>\]](\.\.\.)?")
# An option, with the name of its value if it has one, and what is said of it.
OPTION = re.compile(r"^ +(?:-\w, )?(--[\w-]+)(?: <(\w+)>)?(?= |$)(.*(?:\n(?: {8}.*)?$)*)", re.M)
CHOICES, BOUNDS = re.compile(r"\[possible values: ([^\]]+)\]"), re.compile(r"\b(\d+) to (\d+)\b")
# The values that are numbers, if nothing else is said of them, and how a number is written.
NUMBERS, NUMBER = {"ADDRESS": "0 to 63", "N": "", "S": "", "T": ""}, r"\+?[0-9]{1,20}"


class Form(typing.NamedTuple):
    """What a command takes: its options, each with the name of its value and what is said of it; those that it wants; its other words, each with
    whether it may be left out and be there several times; and its line of usage."""

    options: dict[str, tuple[str, str]]
    wanted: list[str]
    places: list[tuple[str, bool, bool]]
    usage: str


def commands(program: str) -> list[str]:
    """The commands of a program and of its launcher, none where it has no help."""
    helps = [it.read_text() for it in (HELP / f"{program}.txt", HELP / f"{program}-launcher.txt") if it.exists()]
    return list(dict.fromkeys(name for text in helps for listed in LISTED.findall(text) for name in COMMAND.findall(listed)))


def form(program: str, command: str) -> Form | None:
    """What a command takes, if it has a help."""
    file = HELP / f"{program}-{command}.txt"
    if not file.exists() or not (usage := USAGE.search(file.read_text())):
        return None
    places = [(name, left == "[", bool(more)) for left, name, more in PLACE.findall(WANTED.sub("", usage[0].replace("[OPTIONS]", "")))]
    options = {name: (value, text) for name, value, text in OPTION.findall(file.read_text())}
    return Form(options, WANTED.findall(usage[0]), places, usage[0])


def fault(program: str, words: list[str]) -> tuple[str, int] | None:
    """What is wrong with a call, with the usage behind it, and with which status it ends; or nothing."""
    known = commands(program)
    if not known:
        return None
    name = words[1] if words[:1] == ["help"] and words[1:] else "".join(words[:1])
    if name not in known:
        near = difflib.get_close_matches(name, known, 1)
        meant = f"; did you mean '{near[0]}'?" if near else ""
        return f"error: '{name}' is none of the commands {', '.join(known)}{meant}\n\nFor more information, try '--help'.", BAD_WORD
    takes = form(program, name)
    if not takes or words[0] == "help":
        return None
    given, others, wrong = told(takes, words[1:])
    if wrong := wrong or lacking(takes, given, others) or misfit(takes, given, others):
        return f"error: {wrong}\n\n{takes.usage}\n\nFor more information, try '--help'.", BAD_WORD
    file = dict(given).get("--records")
    if name == "table" and not any(map(os.path.exists, (file, f"{os.path.realpath(file)}.replacing"))):
        return f"error: {file}: there is no such file of records", NO_RECORDS
    return None


def told(takes: Form, words: list[str]) -> tuple[list[tuple[str, str]], list[str], str | None]:
    """The options of a call that have values, with these; its other words; and the first option that the command does not take."""
    given, others, left = [], [], list(words)
    while left:
        word = left.pop(0)
        name, is_tied, value = word.partition("=")
        if not word.startswith("--") or word == "--":
            others.append(word)
        elif takes.options.get(name, ("", ""))[0]:
            if not is_tied and not left:
                return given, others, f"a value is missing behind '{name}'"
            given.append((name, value if is_tied else left.pop(0)))
        elif word not in takes.options:
            return given, others, f"unexpected argument '{word}'"
    return given, others, None


def lacking(takes: Form, given: list[tuple[str, str]], others: list[str]) -> str | None:
    """What a command lacks, or has too much."""
    needed = [name for name, may_lack, _ in takes.places if not may_lack]
    if lacks := [it for it in takes.wanted if it not in dict(given)]:
        return f"{' and '.join(lacks)} must be given"
    if len(others) < len(needed):
        return f"<{needed[len(others)]}> must be given"
    if len(others) > len(takes.places) and not any(many for _, _, many in takes.places):
        return f"unexpected argument '{others[len(takes.places)]}'"
    return None


def misfit(takes: Form, given: list[tuple[str, str]], others: list[str]) -> str | None:
    """The first word that is no value of its option, or of its place."""
    values = [(f"{option} <{takes.options[option][0]}>", *takes.options[option], word) for option, word in given]
    for at, word in enumerate(others):
        name = takes.places[min(at, len(takes.places) - 1)][0]
        # The last of these words is a block, and those before it are short addresses.
        kind = name if name != "WORD" else "BLOCK" if at == len(others) - 1 else "ADDRESS"
        values.append((f"<{name}>", kind, "", word))
    found = ((label, word, why) for label, kind, text, word in values if (why := why_not(kind, text, word)))
    return next((f"invalid value '{word}' for '{label}': {why}" for label, word, why in found), None)


def why_not(kind: str, text: str, word: str) -> str | None:
    """Why a word is no value of a kind, of which the help says this; None if it is one."""
    if choices := CHOICES.search(text):
        return None if word in choices[1].split(", ") else f"none of {choices[1]}"
    if kind == "BLOCK":
        first, dash, last = word.partition("-")
        is_block = dash and all(re.fullmatch(NUMBER, it) for it in (first, last)) and int(first) <= int(last) <= 63
        return None if is_block else "not a block such as 0-63"
    if kind not in NUMBERS:
        return None
    if not re.fullmatch(NUMBER, word):
        return "not a number"
    bounds = BOUNDS.search(NUMBERS[kind] or text)
    return None if not bounds or int(bounds[1]) <= int(word) <= int(bounds[2]) else f"not in {bounds[0]}"
