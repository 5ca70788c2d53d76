"""What a reader of this repository can see at a glance and no proof says: see tools/lint.

Each rule takes the folder of a repository and gives its offences, one line of text each.
"""

import ast
import os
import pathlib
import re
import sys
import types
from collections.abc import Iterator

from lib import line_forms, spelled, statement, whole, writing, wrong_bodies

WIDTHS = {"src": (".rt", 120), "specs": (".antt", 100), "proofs": (".antt", 160)}
LONGEST = 800
HELP_WIDTH = 100
# What users run beside the proved programs, with what makes the page in a browser and the packages; and how many lines it has at most. Tests of
# drivers are none of it, nor is what checks and measures.
USED = (
    "dali_*", "yolgibat/*", "yolgibat/help/*", "adapters/*", "tools/web", "tools/lib/web/*", "tools/lib/try_page.py", "tools/package",
    "tools/lib/packaged/*", *(f"tools/lib/{it}.py" for it in ("packing", "program_files", "debian", "manual_pages")),
)
MOST_USED = 11_600
# The folders that have crates, and the lists of what each crate stands on.
FOLDERS = {"crates": "crates.txt", "tests": "tests/tests.txt", "extra": "extra/programs.txt"}


def files(root: pathlib.Path, pattern: str) -> list[pathlib.Path]:
    """The files of the repository that match, and none of those that are built."""
    return sorted(file for file in root.glob(pattern) if "out" not in file.relative_to(root).parts)


def everywhere(root: pathlib.Path, suffix: str) -> list[pathlib.Path]:
    """The files of the repository with this suffix, but not what git and builds keep."""
    found = []
    for folder, folders, names in os.walk(root):
        folders[:] = [it for it in folders if it not in (".git", ".proving", ".gate", "out")]
        found += [pathlib.Path(folder, name) for name in names if name.endswith(suffix)]
    return sorted(found)


def code(root: pathlib.Path, pattern: str) -> list[pathlib.Path]:
    """The files of crates that match, in each folder that has crates."""
    return [file for folder in FOLDERS for file in files(root, f"{folder}/{pattern}")]


def named(root: pathlib.Path, file: pathlib.Path) -> pathlib.Path:
    return file.relative_to(root)


def widths(root: pathlib.Path) -> Iterator[str]:
    """Lines of code are at most 120 columns wide, of definitions 100, of proofs 160 (tools/break-lines breaks those)."""
    for part, (suffix, most) in WIDTHS.items():
        for file in code(root, f"*/{part}/**/*{suffix}"):
            for at, line in enumerate(file.read_text().splitlines(), 1):
                if len(line) > most:
                    yield f"{named(root, file)}:{at}: {len(line)} columns, and {most} at most"


def lengths(root: pathlib.Path) -> Iterator[str]:
    """Files of code, definitions and proofs have fewer than 800 lines."""
    for pattern in ("**/*.rt", "**/*.antt"):
        for file in code(root, pattern):
            count = len(file.read_text().splitlines())
            if count >= LONGEST:
                yield f"{named(root, file)}: {count} lines, and fewer than {LONGEST} wanted"


def used(root: pathlib.Path) -> int:
    """How many lines users run."""
    return sum(len(it.read_bytes().splitlines()) for pattern in USED for it in files(root, pattern) if it.is_file())


def sizes(root: pathlib.Path) -> Iterator[str]:
    """What users run has at most so many lines."""
    if used(root) > MOST_USED:
        yield f"{used(root)} lines are run by users, and {MOST_USED} at most"


def imported(text: str) -> Iterator[tuple[str, re.Match]]:
    """The names that the `use` items of a file bring in, with the item that does."""
    for item in re.finditer(r"^[ \t]*(?:ghost )?use ([^;]+);", text, re.M):
        braces = re.search(r"\{(.*)\}", item[1], re.S)
        for name in (braces[1] if braces else re.split(r"::|\.", item[1])[-1]).split(","):
            words = name.split()
            if words:
                yield re.split(r"::|\.", words[-1])[-1], item


def is_used(name: str, text: str) -> bool:
    """Whether a text has a name; of an operator, each of its words."""
    words = [it for it in name.split("◌") if it]
    if name in ("self", "*", "[]") or not words:
        return True
    wanted = (rf"(?<![\w]){re.escape(it)}(?![\w])" if re.fullmatch(r"\w+", it) else re.escape(it) for it in words)
    return all(re.search(it, text) for it in wanted)


def imports(root: pathlib.Path) -> Iterator[str]:
    """Each name that a file of code imports stands in it; or it is a trait, and the file calls one of its methods."""
    methods = methods_of_traits(root)
    for file in code(root, "*/src/**/*.rt"):
        text = file.read_text()
        rest = re.sub(r"^[ \t]*(?:pub )?(?:ghost )?use [^;]+;", "", without_comments(text), flags=re.M)
        for name, item in imported(text):
            if not is_used(name, rest) and not any(calls(it, rest) for it in methods.get(name, ())):
                at = text[: item.start()].count("\n") + 1
                yield f"{named(root, file)}:{at}: {name} is imported and not used"


# Traits of the kit that files import for their methods, or for macros that call these.
METHODS = {
    "BufRead": ("lines", "read_line", "read_until"),
    "Crash": ("crash",),
    "Rng": ("next_u32", "next_u64", "fill_bytes"),
    "NextWord": ("next_word",),
    "OpenFile": ("sync_all",),
    "SeedableRng": ("from_seed", "seed_from_u64"),
    "Write": ("flush", "write_all", "write_str", "write!", "writeln!"),
}
TRAIT = re.compile(r"^([ \t]*)pub trait (\w+)[^{]*\{\n(.*?)^\1\}", re.M | re.S)


def methods_of_traits(root: pathlib.Path) -> dict[str, tuple[str, ...]]:
    """The methods of the traits in `METHODS`, and of those that crates of the repository declare."""
    them = dict(METHODS)
    for file in code(root, "*/src/**/*.rt"):
        for it in TRAIT.finditer(without_comments(file.read_text())):
            them[it[2]] = (*them.get(it[2], ()), *re.findall(r"\bfn (\w+)", it[3]))
    return them


def calls(method: str, text: str) -> re.Match | None:
    """Whether a text calls a method of this name, or a macro."""
    return re.search(rf"\b{method}" if method.endswith("!") else rf"(?:\.|::){method}(?:\(|::<)", text)


def without_comments(text: str) -> str:
    """A file of code without its comments and docs."""
    return re.sub(r"//.*", "", text)


def docs(root: pathlib.Path) -> Iterator[str]:
    """Each public function of a library has a doc, unless it is of a trait's impl, where the trait has it, or of tests."""
    for file in code(root, "*/src/**/*.rt"):
        if file.relative_to(root).parts[0] == "tests":
            continue
        lines = file.read_text().splitlines()
        for at, line in enumerate(lines):
            found = re.match(r"\s*pub (?:const )?(?:unsafe )?fn (\w+)", line)
            if found and not documented(lines, at):
                yield f"{named(root, file)}:{at + 1}: the public function {found[1]} has no doc"


def documented(lines: list[str], at: int) -> bool:
    """Whether a doc stands above a line, with attributes between them or not."""
    for line in reversed(lines[:at]):
        if line.strip().startswith("///"):
            return True
        if not line.strip().startswith(("#[", "ghost ", ")]", "using(")):
            return False
    return False


def crates(root: pathlib.Path) -> Iterator[str]:
    """Each crate that a list names below another is named by a file of that one, in code and not in a comment."""
    for listing in (root / it for it in FOLDERS.values()):
        for line in listing.read_text().splitlines() if listing.exists() else ():
            head, _, below = re.split("#| [+] ", line)[0].partition(":")
            if not head.strip():
                continue
            name = head.split()[0]
            text = "".join(without_comments(file.read_text()) for file in code(root, f"{name}/**/*.rt"))
            text += "".join(re.sub("--.*", "", file.read_text()) for file in code(root, f"{name}/**/*.antt"))
            for it in below.split():
                if not re.search(rf"\b{it}::|\buse {it};|\bRattle\.{it}\.", text):
                    yield f"{named(root, listing)}: {name} names {it}, and no file of {name} does"


def listed(root: pathlib.Path) -> dict[str, list[str]]:
    """The crates of crates.txt, each with those that it stands on, the kit's too."""
    heads = [re.split("#", it)[0].partition(":") for it in (root / "crates.txt").read_text().splitlines()]
    return {head.split()[0]: below.split() for head, _, below in heads if head.strip()}


def drawing(root: pathlib.Path) -> Iterator[str]:
    """The drawing of docs/ARCHITECTURE.md has each crate, and what it stands on in a lower row."""
    page = root / "docs/ARCHITECTURE.md"
    them, blocks = listed(root), re.findall(r"^```\n(.*?)^```", page.read_text(), re.M | re.S)
    rows = {name: at for at, line in enumerate(blocks[0].splitlines()) for name in line.split() if name in them} if blocks else {}
    for name, below in them.items():
        if name not in rows:
            yield f"{named(root, page)}: the drawing lacks {name}"
        for it in below:
            if name in rows and it in rows and rows[it] <= rows[name]:
                yield f"{named(root, page)}: the drawing has {it} not below {name}, which stands on it"


def heading(line: str) -> str:
    """The name by which a link finds a heading."""
    return re.sub(r"[^\w\- ]", "", line.strip().lower().replace("`", "")).replace(" ", "-")


def prose(text: str) -> str:
    """A document without its blocks of code."""
    return re.sub(r"^```.*?^```", "", text, flags=re.M | re.S)


def links(root: pathlib.Path) -> Iterator[str]:
    """Links in documents lead to files and headings that are there."""
    for file in everywhere(root, ".md"):
        text = prose(file.read_text())
        for target in re.findall(r"\]\(([^)\s]+)\)", text):
            if re.match(r"\w+:", target):
                continue
            path, _, section = target.partition("#")
            to = (file.parent / path).resolve() if path else file
            if not to.exists():
                yield f"{named(root, file)}: the link {target} leads to no file"
            elif section and to.suffix == ".md" and section not in headings(to):
                yield f"{named(root, file)}: the link {target} leads to no heading"


def headings(file: pathlib.Path) -> set[str]:
    return {heading(it) for it in re.findall(r"^#+ (.*)$", prose(file.read_text()), re.M)}


def paths(root: pathlib.Path) -> Iterator[str]:
    """Paths of the repository that documents name, as `docs/FORMAT.md` or `yolgibat/launch`, are there."""
    tops = (*FOLDERS, "adapters", "docs", "tools", "yolgibat", "examples", "include")
    for file in everywhere(root, ".md"):
        if file.name == "CHANGELOG.md":
            continue
        for path in re.findall(rf"`((?:{'|'.join(tops)})/[\w./-]+)", prose(file.read_text())):
            if not re.search(r"/out/|NAME|\.\.", path) and not (root / path.rstrip(".")).exists():
                yield f"{named(root, file)}: there is no {path}"


def examples(root: pathlib.Path) -> Iterator[str]:
    """Each block of Rust in docs/LIBRARY.md stands in the test that compiles it, and there is one."""
    page, test = root / "docs/LIBRARY.md", root / "tests/dali_line_tests/src/library.rt"
    text = test.read_text() if test.exists() else ""
    blocks = re.findall(r"^```rust\n(.*?)^```$", page.read_text(), re.M | re.S) if page.exists() else [text]
    if not blocks:
        yield f"{named(root, page)}: there is no block of Rust"
    for block in blocks:
        if block not in text:
            yield f"{named(root, page)}: {named(root, test)} has no such text: {block.splitlines()[0]}"


def clauses(root: pathlib.Path) -> Iterator[str]:
    """Each clause that docs/PROOFS.md or the README of a crate names stands in a contract of some crate."""
    contracts = "".join(file.read_text() for file in code(root, "*/src/**/*.rt"))
    known = set(re.findall(r"\b(?:ensures|requires) (\w+)", contracts))
    for file in [root / "docs/PROOFS.md", *code(root, "*/README.md")]:
        for words in re.findall(r"clauses? ((?:`\w+`(?:, | and )?)+)", file.read_text() if file.exists() else ""):
            for name in re.findall(r"`(\w+)`", words):
                if name not in known:
                    yield f"{named(root, file)}: no contract has a clause {name}"


def kit(root: pathlib.Path) -> Iterator[str]:
    """The kit's name stands in the file KIT alone."""
    name = (root / "KIT").read_text().split()[0]
    found = [file for suffix in (".md", ".rt", ".py") for file in everywhere(root, suffix)]
    found += [file for pattern in ("tools/**/*", "yolgibat/**/*", ".ci/*", "*") for file in files(root, pattern)]
    for file in found:
        if file.is_file() and file != root / "KIT" and name in file.read_text(errors="replace"):
            yield f"{named(root, file)}: the kit's name stands here, and in KIT"


def handles(root: pathlib.Path) -> Iterator[str]:
    """A program names no handle that the file HANDLES does not allow, and no way to a socket or to another program. Of libraries rt ci says
    so; programs it is not given."""
    allowed = set(re.findall(r"\w+", (root / "HANDLES").read_text().partition(":")[2]))
    for file in code(root, "*/src/main.rt"):
        words = re.findall(r"\b(Threads|Wait|Net|Processes|Abort|net|Command)\b", without_comments(file.read_text()))
        for word in sorted(set(words) - allowed):
            yield f"{named(root, file)}: {word}, which HANDLES does not allow"


def spellings(root: pathlib.Path) -> Iterator[str]:
    """What cannot read the code spells each variant of an enum as the code has it: see spelled.py."""
    for place in spelled.PLACES:
        yield from spelled.missing(root, place)


def forms(root: pathlib.Path) -> Iterator[str]:
    """docs/FORMAT.md has the forms of lines that the program's table has, and tools/lib/script_forms.py each kind of word."""
    yield from line_forms.missing(root)


def page(root: pathlib.Path) -> Iterator[str]:
    """docs/STATEMENT.md has the sections of the promise's page as the sources have them: see statement.py."""
    yield from statement.missing(root)


def edits(root: pathlib.Path) -> Iterator[str]:
    """Each wrong body and each twin applies to the file that it names, where each of its old texts stands exactly once. Each twin has a wrong
    body of its name, and each wrong body that changes a shape has a twin or is named as one without."""
    unpaired = set()
    for kept in ("must-fail", "attacks", "twins"):
        for file in files(root, f"crates/*/{kept}/*.edit"):
            crate = file.parent.parent
            try:
                edit = wrong_bodies.read(file, types.SimpleNamespace(folder=crate))
            except (wrong_bodies.Unfit, OSError) as why:
                yield f"{named(root, file)}: {why}"
                continue
            if kept == "twins" and not any((crate / it / file.name).exists() for it in ("must-fail", "attacks")):
                yield f"{named(root, file)}: no wrong body has its name"
            if kept != "twins" and not edit.keeps_shape and not (crate / "twins" / file.name).exists():
                unpaired.add(f"{crate.name}/{file.name}")
    listed = set(wrong_bodies.without_twins(root))
    yield from (f"crates/{it}: it changes a shape, and has no twin" for it in unpaired - listed)
    yield from (f"tools/lib/without-twins.txt: {it} is no wrong body that changes a shape and has no twin" for it in listed - unpaired)


def version(root: pathlib.Path) -> Iterator[str]:
    """The version is the same in the code, in the header for C, in the help that is there before a build, and on top of the changelog; that of
    the structs for C is the same in the code and in the header."""
    program = {
        "crates/dali_words/src/program.rt": r'VERSION: &str = "(.*)"',
        "include/dali_c.h": r'#define DALI_VERSION "(.*)"',
        "CHANGELOG.md": r"(?m)^## (\d.*)",
        **{f"yolgibat/help/{it}-version.txt": rf"{it} (.*)" for it in ("dali_sim", "dali_commission")},
    }
    structs = {"crates/dali_c/src/state.rt": r"VERSION: u8 = (\d+);", "include/dali_c.h": r"#define DALI_C_VERSION (\d+)\n"}
    for places in (program, structs):
        found = {name: re.search(it, (root / name).read_text()) for name, it in places.items() if (root / name).exists()}
        wanted = next((it[1] for it in found.values() if it), None)
        for name, it in found.items():
            if not it or it[1] != wanted:
                yield f"{name}: {it and it[1]} is not the version {wanted}"


def helps(root: pathlib.Path) -> Iterator[str]:
    """The help of ./dali_commission is at most 100 columns wide, lists `page` first, and names each command and each of its options."""
    own = root / "yolgibat/help/dali_commission-launcher.txt"
    text = own.read_text() if own.exists() else ""
    for at, line in enumerate(text.splitlines(), 1):
        if len(line) > HELP_WIDTH:
            yield f"{named(root, own)}:{at}: {len(line)} columns, and {HELP_WIDTH} at most"
    if text and not re.search(r"^Commands:\n  page ", text, re.M):
        yield f"{named(root, own)}: page is not its first command"
    for file in files(root, "yolgibat/help/dali_commission-*.txt") if text else ():
        words = re.findall(r"^ +(?:-\w, )?(--[\w-]+)", file.read_text(), re.M)
        for word in words if file != own else ():
            if not re.search(rf"{word}(?![\w-])", text):
                yield f"{named(root, own)}: {word} of {file.name} is missing"
        command = file.stem.partition("-")[2]
        if command not in ("launcher", "version") and not re.search(rf"^  {command} ", text, re.M):
            yield f"{named(root, own)}: the command {command} is missing"


def readmes(root: pathlib.Path) -> Iterator[str]:
    """Each crate has a README."""
    for folder in (it for top in FOLDERS for it in sorted((root / top).glob("*/")) if (it / "src").is_dir()):
        if not (folder / "README.md").exists():
            yield f"{named(root, folder)}: it has no README"


def front(root: pathlib.Path) -> Iterator[str]:
    """The modules of yolgibat/ read the standard library and one another, and nothing else."""
    known = {*sys.stdlib_module_names, "yolgibat"}
    for file in files(root, "yolgibat/*.py"):
        for it in ast.walk(ast.parse(file.read_text())):
            names = [it.module or ""] if isinstance(it, ast.ImportFrom) else [each.name for each in it.names] if isinstance(it, ast.Import) else []
            yield from (f"{named(root, file)}:{it.lineno}: it reads {name}" for name in names if name.partition(".")[0] not in known)


def annotations(root: pathlib.Path) -> Iterator[str]:
    """The public functions of modules in Python have types at their arguments and their results."""
    for file in [*files(root, "tools/lib/*.py"), *files(root, "yolgibat/*.py"), *files(root, "adapters/*.py")]:
        for name, it in public(ast.parse(file.read_text()).body):
            listed = [*it.args.posonlyargs, *it.args.args, it.args.vararg, *it.args.kwonlyargs, it.args.kwarg]
            lacks = [that.arg for that in listed if that and that.annotation is None and that.arg not in ("self", "cls")]
            if lacks := lacks if it.returns else [*lacks, "its result"]:
                yield f"{named(root, file)}:{it.lineno}: {name} lacks a type: {', '.join(lacks)}"


def public(body: list[ast.stmt], before: str = "") -> Iterator[tuple[str, ast.FunctionDef]]:
    """The public functions of a module or of a class, and of its public classes, each with its name."""
    for it in body:
        if isinstance(it, ast.ClassDef) and not it.name.startswith("_"):
            yield from public(it.body, f"{before}{it.name}.")
        elif isinstance(it, ast.FunctionDef) and not it.name.startswith("_"):
            yield f"{before}{it.name}", it


RULES = (
    widths, lengths, sizes, imports, docs, crates, drawing, links, paths, examples, clauses, readmes, writing.words, writing.plain, kit,
    handles, spellings, forms, page, edits, version, helps, front, annotations,
)
# What is told, and is no offence.
WARNINGS = (writing.sentences, whole.whole)


def offences(root: pathlib.Path | str, rules: tuple = RULES) -> dict[str, list[str]]:
    """What each rule finds, by its name."""
    return {rule.__name__: sorted(set(rule(pathlib.Path(root)))) for rule in rules}
