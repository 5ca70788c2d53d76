"""The forms of the lines of a script, as the program's table has them, and whether docs/FORMAT.md and the scripts know
each of them: see tools/lint."""

import collections.abc
import pathlib
import re

TABLE, FORMAT, SCRIPTS = "crates/dali_grammar/src/reason/forms.rt", "docs/FORMAT.md", "tools/lib/script_forms.py"
# How the tables of docs/FORMAT.md begin, and the lists of the program that each has.
TABLES = {
    "| Line | Sets up |": ("FIRST", "SECOND", "USED"),
    "| Line | Does | Reports |\n": ("BENCH",),
    "| Line | Does | Reports | Refusals": ("SITE",),
}


def text_of(root: pathlib.Path, file: str) -> str:
    return (root / file).read_text() if (root / file).exists() else ""


def expanded(form: str) -> list[str]:
    """A form; or where it ends with words of which one or none may stand, as `pump [lost|noise]`, each that it may be."""
    begin, _, choices = form.partition(" [")
    return [begin, *(f"{begin} {it}" for it in choices.rstrip("]").split("|") if it)]


def forms(root: pathlib.Path, name: str) -> list[str]:
    """The forms of a list of the program, as `off g`."""
    found = re.search(rf"^const {name}: &\[LineForm\] = &\[(.*?)\];", text_of(root, TABLE), re.M | re.S)
    rows = re.findall(r'LineForm\("([^"]*)", "([^"]*)"\)', found[1]) if found else []
    return [it for begin, words in rows for it in expanded(f"{begin} {words}".rstrip())]


def is_kind(word: str) -> bool:
    """Whether a word of a form stands for others, as `g` for the number of a gear."""
    return word != ".." and not re.fullmatch("[a-z]{2,}", word)


def written(root: pathlib.Path, head: str) -> list[str]:
    """The forms in the first column of a table of the document."""
    found = re.search(rf"^{re.escape(head)}.*?(?=^[^|]|^$|\Z)", text_of(root, FORMAT), re.M | re.S)
    rows = found[0].splitlines()[2:] if found else []
    return [it for row in rows for it in re.findall(r"`([^`]+)`", row.split("|")[1])]


def missing(root: pathlib.Path) -> collections.abc.Iterator[str]:
    """What the document, the program's table and the scripts lack of each other."""
    for head, names in TABLES.items():
        code, said = [it for name in names for it in forms(root, name)], written(root, head)
        lists = ", ".join(names)
        if not code or not said:
            yield f"{TABLE}, {FORMAT}: there is no list {lists}, or no table '{head.strip()}'"
        yield from (f"{FORMAT}: the table '{head.strip()}' lacks `{it}`, which {TABLE} has" for it in code if it not in said)
        yield from (f"{TABLE}: {lists} lacks `{it}`, which {FORMAT} has" for it in said if it not in code)
        for word in {word for it in code for word in it.split() if is_kind(word)}:
            if f'"{word}":' not in text_of(root, SCRIPTS):
                yield f"{SCRIPTS}: there is no kind {word}, which a form of {TABLE} has"
