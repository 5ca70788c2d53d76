"""What is said to people, in each language: the one list texts.json has each text by its name, in English first.

A name with `::` is that of a line of the program, or of a part of one, by the variant in its code; one that begins with `say:` is a line of the
launcher. These come as English text, and are found in the list by their form. All others are asked for by their names, in pages and on terminals.
"""

import functools
import json
import re
import typing

from yolgibat import ROOT, standard

FILE = ROOT / "yolgibat/texts.json"
# The language in which the program speaks, and the launcher to whoever asks for none that is there.
FIRST = standard.ENGLISH
# What may stand for a name in the form of a line, a number if nothing is said. For some it is a text that is said by a form itself.
INNER = ("aim", "cause")
TEXTS = ("driver", "file", "kept", "name", "program", "records", "text", "time", "why", *INNER)
KINDS = dict.fromkeys(("random", "heard", "other"), "[0-9A-F]{6}") | dict.fromkeys(TEXTS, ".+")
# A name in braces; braces with anything else stand for themselves.
NAME = re.compile(r"\{(\w+)\}")
# A language that a browser asks for, with how much it is wanted.
WANTED = re.compile(r"\s*([A-Za-z]{1,8})(?:-[A-Za-z0-9-]*)?\s*(?:;\s*q=([01](?:\.[0-9]{0,3})?))?\s*")


class Heard(typing.NamedTuple):
    """A line by its name in the list, and what stands in it."""

    name: str
    parts: dict[str, str]


@functools.cache
def known() -> dict[str, list[str]]:
    """The list: the languages, and each text in all of them."""
    return json.loads(FILE.read_text(encoding="utf-8"))


def languages() -> list[str]:
    return known()["languages"]


def is_line(name: str) -> bool:
    return "::" in name or name.startswith("say:")


@functools.cache
def of(language: str) -> dict[str, str]:
    at = languages().index(language)
    return {name: them[at] for name, them in known().items() if name != "languages" and not is_line(name)}


def text(name: str, language: str, /, **parts: object) -> str:
    return NAME.sub(lambda it: str(parts[it[1]]), known()[name][languages().index(language)])


def chosen(accepted: str) -> str:
    """The language of a page, by what its browser accepts: the one that it wants most of those that are there."""
    found = [it for word in accepted[:512].split(",") if (it := WANTED.fullmatch(word)) and it[1].lower() in languages()]
    wanted = [(float(it[2] or 1), it[1].lower()) for it in found]
    best = max((weight for weight, _ in wanted), default=0)
    return next((language for weight, language in wanted if weight == best > 0), FIRST)


# Lines.


@functools.cache
def forms() -> dict[str, re.Pattern[str]]:
    """What finds a line of each form, by its name; of two that find one, that which says more comes first."""
    found = {name: them[0] for name, them in known().items() if is_line(name)}
    return {name: pattern(found[name]) for name in sorted(found, key=lambda it: -len(NAME.sub("", found[it])))}


def pattern(form: str) -> re.Pattern[str]:
    parts = NAME.split(form)
    return re.compile("".join(f"(?P<{it}>{KINDS.get(it, '[0-9]+')})" if at % 2 else re.escape(it) for at, it in enumerate(parts)))


@functools.lru_cache(4096)
def heard(line: str) -> Heard | None:
    """What a line says. None if it is none of the list, as what a driver says."""
    for name, form in forms().items():
        found = form.fullmatch(line)
        if found and all(heard(part) for it, part in found.groupdict().items() if it in INNER):
            return Heard(name, found.groupdict())
    return None


def told(line: str, language: str) -> str | None:
    """A line in a language. None if it has no translation."""
    if language == FIRST:
        return line
    it = heard(line)
    return it and text(it.name, language, **{name: told(part, language) if name in INNER else part for name, part in it.parts.items()})
