"""The manual pages of the launchers, made of their help texts and of the tables of exit statuses in docs/FORMAT.md."""

import re

from lib import ROOT, packing
from yolgibat import call_words, command, helps

HELP = ROOT / "yolgibat/help"
# What of a help text is about building, and the name of a launcher in one.
BUILD, CALL = re.compile(r"^ +--build .*\n", re.M), re.compile(r"(?:\./)?\bdali_(commission|sim|view)\b")
# Where FORMAT.md has the statuses of a launcher.
STATUSES = {"dali_commission": "Exit statuses of `dali_commission`", "dali_sim": "Exit statuses and faults"}
# What a launcher adds to the statuses of its program if that is there.
ADDED = {
    "dali_commission": "2 is also a bad --driver, --driver-timeout, --story or --trace; 127 a driver that cannot be started; 128 and more the "
    "number of a signal that ended it, with 128 added.",
    "dali_sim": "1 is also a story that is bad; 2 no word, or one that is not known; 3 a story that cannot be read.",
}
ABOUT = {
    "dali_commission": "give DALI control gear their short addresses",
    "dali_sim": "simulate the commissioning of DALI control gear, and judge what was recorded of it",
    "dali_view": "draw a run as a page for a browser",
}
FILES = {
    "site.db": "the records of a controller: which gear has which short address",
    "site.names.json": "beside them, where each luminaire hangs",
    "site.marks.json": "beside them, what is to be looked at on the page",
    "site.db.page": "beside them, the address of the page that was served last",
    "/etc/yolgibat/NAME.toml": "the buses that yolgibat-check@NAME.timer checks each night, once it is enabled",
    "/usr/lib/yolgibat/adapters": "drivers; in a --driver they may be named as adapters/NAME",
    "/usr/share/doc/yolgibat": "manuals, examples, the commit, and what its tests said",
}
# How wide a help text is on a page, of 78 columns without the indent.
WIDTH = 71
MARKUP = (
    (r"!?\[([^\]]*)\]\([^)]*\)", r"\1"),
    (r"(?<![\\`])`([^`]+)`", "\x01\\1\x02"),
    (r"\*\*([^*]+)\*\*", "\x01\\1\x02"),
    (r"(?<![*\w])\*([^*]+)\*", r"\1"),
)


def escaped(text: str) -> str:
    """A text as groff reads it."""
    text = text.replace("\\", "\\e").replace("-", "\\-").replace("'", "\\(aq").replace("`", "\\(ga").replace("^", "\\(ha").replace("~", "\\(ti")
    text = text.replace("\x01", "\\fB").replace("\x02", "\\fR")
    text = "".join(it if ord(it) < 128 else f"\\[u{ord(it):04X}]" for it in text)
    return re.sub(r"(?m)^\.", r"\\&.", text)


def plain(markdown: str) -> str:
    """A text of a document, with its code in bold."""
    for pattern, new in MARKUP:
        markdown = re.sub(pattern, new, markdown)
    return markdown


def section(document: str, heading: str) -> str:
    """What stands below a heading, up to the next one."""
    text = (ROOT / document).read_text()
    found = re.search(rf"^#+ {re.escape(heading)}\n(.*?)(?=^#|\Z)", text, re.M | re.S)
    if not found:
        raise KeyError(f"{document} has no heading '{heading}'")
    return found[1].strip()


def rows(heading: str) -> list[list[str]]:
    """The rows of the first table below a heading of FORMAT.md."""
    lines = [it for it in section("docs/FORMAT.md", heading).splitlines() if it.startswith("| ")]
    return [[cell.strip() for cell in re.split(r"(?<!\\)\|", line)[1:-1]] for line in lines[1:]]


def listed(them: list[tuple[str, str]]) -> str:
    """Items, each with what is said of it."""
    return "".join(f".TP\n.B {escaped(it)}\n{escaped(said)}\n" for it, said in them)


def shown(*names: str) -> str:
    """Help texts as a terminal shows them."""
    text = spoken("".join((HELP / f"{it}.txt").read_text() for it in names))
    return f".EX\n{escaped(helps.filled(text, WIDTH))}.EE\n"


def head(name: str, number: int, about: str) -> str:
    title = f'.TH {name.upper().replace("-", chr(92) + "-")} {number} "" "Yolgibat {packing.versions()[0]}" "Yolgibat"\n'
    return f"{title}.nh\n.SH NAME\n{escaped(name)} \\- {escaped(about)}\n"


def commands(program: str) -> list[str]:
    """The commands of a program that have a help text, as its help lists them."""
    return [it for it in call_words.commands(program) if (HELP / f"{program}-{it}.txt").exists()]


def statuses(program: str) -> str:
    """What each exit status says, by the table of FORMAT.md."""
    made = ".SH EXIT STATUS\n"
    for status, *cells in rows(STATUSES[program]):
        made += f".TP\n.B {escaped(status)}\n" + "\n.br\n".join(escaped(plain(it)) for it in cells if it) + "\n"
    return made + f".PP\n{escaped(ADDED[program])}\n"


def spoken(text: str) -> str:
    """A help text without what builds, with the launchers as they are called once they are installed."""
    return CALL.sub(r"dali-\1", BUILD.sub("", text))


def page(program: str) -> str:
    name = program.replace("_", "-")
    made = head(name, 1, ABOUT[program]) + f".SH SYNOPSIS\n.B {escaped(name)}\n.RI [ words ]\n.SH DESCRIPTION\n" + shown(*command.TEXTS[program])
    for it in commands(program):
        made += f'.SH "COMMAND {it}"\n' + shown(f"{program}-{it}")
    made += statuses(program) if program in STATUSES else ""
    others = [it.replace("_", "-") for it in ABOUT if it != program]
    return made + ".SH SEE ALSO\n" + ",\n".join([*(f".BR {escaped(it)} (1)" for it in others), ".BR yolgibat (7)"]).replace(",\n", " ,\n") + "\n"


def paragraphs(markdown: str) -> str:
    made = []
    for line in markdown.splitlines():
        if line.startswith("- "):
            made.append(f".IP \\(bu 2\n{escaped(plain(line[2:]))}\n")
        elif line and not line.startswith(("|", "!", "#", "`")):
            made.append(f".PP\n{escaped(plain(line))}\n")
    return "".join(made)


def overview() -> str:
    """yolgibat(7): what it is, and what is promised."""
    first = spoken((ROOT / "README.md").read_text().partition("\n")[2].partition("\n![")[0])
    made = head("yolgibat", 7, "short addresses for DALI lighting, proved") + ".SH DESCRIPTION\n" + paragraphs(first)
    made += ".SH COMMANDS\n" + "".join(f".TP\n.BR {escaped(it.replace('_', '-'))} (1)\n{escaped(about)}\n" for it, about in ABOUT.items())
    made += ".SH PROMISE\n" + paragraphs(section("README.md", "What is promised"))
    made += ".SH FILES\n" + listed(list(FILES.items()))
    return made + ".SH SEE ALSO\n" + " ,\n".join(f".BR {escaped(it.replace('_', '-'))} (1)" for it in ABOUT) + "\n"


def pages() -> dict[str, str]:
    return {f"{it.replace('_', '-')}.1": page(it) for it in ABOUT} | {"yolgibat.7": overview()}
