"""How documents are written, as far as a machine can see it: see tools/lint, and 'How we write' in CONTRIBUTING.md."""

import pathlib
import re
from collections.abc import Iterator

DOCUMENTS = ("README.md", "CONTRIBUTING.md", "CHANGELOG.md", "docs/*.md", "tools/README.md")
READMES = ("crates/*/README.md",)
HELP = ("yolgibat/help/*.txt",)
# How many words the files that match have at most, all together. If a page grows, another is to become shorter.
MOST_WORDS = (
    (50_000, DOCUMENTS),
    (18_400, READMES),
    (900, ("README.md",)),
    (1_500, ("CONTRIBUTING.md",)),
    (1_500, ("docs/ARCHITECTURE.md",)),
)
LONGEST_SENTENCE = 30
# Texts in which words to avoid are not looked for yet.
OLDER = HELP
# What stands for a piece of code in a text without it.
CODE = "\N{LOZENGE}"
# Words to avoid, and what to write. The conditions with 'where' are those that hardly ever are places.
IT = "(?:it|they|this|that|you)"
IF = "'where' is for places: write 'if' or 'when'"
AVOIDED = {
    r"(?i)\b(?:(?:no|some|any|every)body|who(?:m)?ever)\b": "say who or what it is",
    r"(?i)\b(?:meanwhile|besides)\b": "leave it out, or write 'at the same time'",
    r"(?i)\bsuch\b(?! as\b)": "write 'this', 'these' or 'so'",
    r"(?i)\bof (?:its|their|his|her) own\b": "leave it out, or write 'its own' before the word",
    r"(?:(?:^|[.:] |\()Where|; where) (?!to\b)[^.?]*?,": IF,
    r"\b(?:only|except|exactly|just|even|also|but|unless|than) where\b": IF,
    rf"(?:{CODE}|\b\d+) where (?!{IT} (?:lies?|stands?|hangs?|was|were|begins?|ends?)\b)": IF,
    r"\bwhere (?:nothing|no|none|neither|something|anything|several|both|all|more than|at least|two|three|either)\b": IF,
    r"\bwhere there (?:is|are|was|were)\b": IF,
    rf"\bwhere {IT} (?:is|are|was|were) (?:not|no|already|still|called|connected|damaged|done|full|given|gone|known|missing|refused)\b": IF,
    rf"\bwhere {IT} (?:has|have|had|does|do|did|names?|needs?|wants?|cannot|can|could|would|fails?|failed)\b": IF,
    r"\*\*\d+\.\*\*|\((?:\d+, )*\d+\)|(?i:\bdecisions? \d)": "decisions have no numbers: name one, or link to it",
}


def matching(root: pathlib.Path, patterns: tuple[str, ...]) -> list[pathlib.Path]:
    """The files of a repository that match."""
    return sorted({file for it in patterns for file in root.glob(it)})


def texts(document: str) -> Iterator[tuple[int, str]]:
    """The lines of a document, or the cells of a table, each with the number of its line; without code, and without targets of links."""
    is_code = False
    for at, line in enumerate(document.splitlines(), 1):
        if line.lstrip().startswith("```"):
            is_code = not is_code
        elif not is_code:
            bare = re.sub(r"\]\([^)\s]*\)", "]", re.sub(r"(`+).+?\1", CODE, line))
            for cell in bare.strip("|").split("|") if bare.startswith("|") else [bare]:
                yield at, re.sub(r"^\s*(?:(?:[-*#]+|\d+\.) )?", "", cell)


def words(root: pathlib.Path) -> Iterator[str]:
    """Documents have at most so many words, counted between blanks: all together, the READMEs of crates together, and some alone."""
    for most, patterns in MOST_WORDS:
        count = sum(len(file.read_text().split()) for file in matching(root, patterns))
        if count > most:
            yield f"{', '.join(patterns)}: {count} words, and {most} at most"


def plain(root: pathlib.Path) -> Iterator[str]:
    """Documents and help texts have no words to avoid, no 'where' that begins a condition, and no numbers of decisions."""
    older = matching(root, OLDER)
    for file in matching(root, (*DOCUMENTS, *READMES, *HELP)):
        for at, text in texts(file.read_text()) if file not in older else ():
            for pattern, advice in AVOIDED.items():
                for found in re.finditer(pattern, text):
                    yield f"{file.relative_to(root)}:{at}: '{found[0].strip('.:; (')}': {advice}"


def sentences(root: pathlib.Path) -> Iterator[str]:
    """Sentences of documents have at most 30 words. A colon and a semicolon end one, as a stop does."""
    for file in matching(root, (*DOCUMENTS, *READMES)):
        for at, text in texts(file.read_text()):
            for it in re.split(r"[.:;!?][)'\"*\]]*(?=\s|$)", text):
                count = len(re.findall(rf"{CODE}|[\w*'’-]+", it))
                if count > LONGEST_SENTENCE:
                    yield f"{file.relative_to(root)}:{at}: {count} words: {it.strip()[:60]}"
