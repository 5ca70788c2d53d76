"""Tries edits of a crate's code: wrong bodies, each of which the prover must refuse, and their twins, which it must prove.

An edit is a file with the lines 'file: src/NAME.rt', and 'old: TEXT' and 'new: TEXT' for each place; TEXT stands once in the file. The function
in which the lines stand is planted once more, with the edit and under a name of its own, beside the right one, with its contract and its
proof; so many edits of a crate are tried by one check of these functions over the libraries that are proved. The prover judges each function
by the contracts of the others, and goes on after one that it refuses. So the bodies of all other functions are left out, since a check would
prove what a function calls too, which costs most of it: then a right function is proved, or said to call what is not proved. What cannot be
planted so (an edit of a type, of several functions, of a trait's impl) is tried alone and in its place. So is what came out otherwise than
wanted: of a wrong body that is proved the whole crate is checked, since another function may be refused.

The prover also refuses a right body that its tactics cannot prove. So a refusal shows little where a right body of the same shape would be
refused too. Where an edit exchanges words in place, the line itself is that right body. An edit that changes the shape has a twin, or
tools/lib/without-twins.txt names it as one whose refusal says less.
"""

import concurrent.futures
import pathlib
import re
import shutil
import subprocess
import sys
import tempfile
import typing
from collections.abc import Callable, Iterable, Iterator

from lib import ROOT, proving

# How many edits of a crate one check tries: a check begins with some ten seconds of reading, and takes one processor.
TOGETHER = 100
# What a try comes to.
REFUSED, PROVED, BAD, UNSURE = "refused", "proved", "BAD EDIT", "NO VERDICT"
HEAD = re.compile(r"\s*(?:pub(?:\(\w+\))? )?(const )?(?:unsafe )?fn (\w+)")
# What is said of a function that is right, and calls one which is not proved.
CALLS = "no proof: it calls "
WORD = re.compile(
    r"""(?P<text>"(?:[^"\\]|\\.)*"|'(?:[^'\\]|\\.)')|(?P<number>\d\w*)|(?P<name>\w+)|(?P<test>[<>=!]=|&&|\|\||<(?!<)|>(?!>))"""
    r"|(?P<sum>[+*/%^-](?!=|>))|\S"
)
IMPL = re.compile(r"impl(?:<[^{]*?>)? (?:(?P<trait>\w+)(?:<(?P<of>.*?)>)? for )?&?(?P<type>\w+)")


class Unfit(Exception):
    """An edit that cannot be applied."""


class Edit(typing.NamedTuple):
    """An edit of a file of a crate: the folder in which it stands and its name there, what it puts in place of what, and the functions in
    which that stands."""

    folder: str
    name: str
    file: str
    pairs: list[tuple[str, str]]
    functions: set[str]

    @property
    def keeps_shape(self) -> bool:
        """Whether it only exchanges words in place: names, numbers, texts, and signs of a test or of a sum, each for one of its kind."""
        return all(shape(old) == shape(new) for old, new in self.pairs)

    def applied(self, text: str) -> tuple[str, list[int]]:
        """The text of its file with the edit, and the lines that it changes."""
        changed = []
        for old, new in self.pairs:
            if not old or text.count(old) != 1:
                raise Unfit(f"its old text stands {text.count(old)} times in {self.file}: {old.strip()[:60]}")
            at = text.count("\n", 0, text.index(old))
            text = text.replace(old, new)
            changed += range(at, at + new.count("\n") + 1)
        return text, changed


# An edit, what it came to, and why; and what says so of some edits of a crate.
Came = tuple[Edit, str, str]
Trial = Callable[[proving.Crate, list[Edit]], Iterator[Came]]


def read(file: pathlib.Path, crate: proving.Crate) -> Edit:
    """The edit that stands in a file."""
    lines = file.read_text().splitlines()
    words = [match.groups() for line in lines if (match := re.match(r"(file|old|new): ?(.*)$", line))]
    kinds, texts = [kind for kind, _ in words], [text for _, text in words[1:]]
    if kinds != ["file", *["old", "new"] * (len(texts) // 2)] or not texts or len(words) != len(lines):
        raise Unfit("it wants a line 'file:', and then pairs of lines 'old:' and 'new:', and no other line")
    if texts[::2] == texts[1::2]:
        raise Unfit("it changes nothing")
    edit = Edit(file.parent.name, file.name, words[0][1], list(zip(texts[::2], texts[1::2])), set())
    text, changed = edit.applied((crate.folder / edit.file).read_text())
    return edit._replace(functions=functions(edit.file, text.splitlines(), changed))


def shape(line: str) -> list[str]:
    """The kinds of the words of a line, and each sign that is none of these."""
    return [it.lastgroup or it[0] for it in WORD.finditer(line)]


def without_twins(root: pathlib.Path) -> list[str]:
    """The edits that change a shape and have no twin, as they are named: CRATE/NAME."""
    file = root / "tools/lib/without-twins.txt"
    return file.read_text().split() if file.exists() else []


def functions(file: str, lines: list[str], changed: list[int]) -> set[str]:
    """The functions in which lines stand, each by its type or its module; none where one stands in no function."""
    words = pathlib.PurePath(file).with_suffix("").parts[1:]
    module = words[:-1] if words[-1:] in [("lib",), ("main",)] else words
    found = {function(lines, at, module) for at in changed}
    return set() if None in found else found


def function(lines: list[str], at: int, module: tuple[str, ...]) -> str | None:
    """The function in which a line stands, or nothing. It is indented less than the line, and its `impl` less than it is."""
    depth, name = indent(lines[at]) + bool(HEAD.match(lines[at])), None
    for number, line in reversed([*enumerate(lines[: at + 1])]):
        if name is None and (head := HEAD.match(line)) and indent(line) < depth:
            name, depth = head[2], indent(line)
        elif name and (kind := impl_at(lines, number)) and indent(line) < depth:
            return f"{named(kind)}::{name}"
    return name and "::".join([*module, name])


def impl_at(lines: list[str], at: int) -> re.Match | None:
    """The `impl` that begins on a line, or nothing. What it is for may stand on the next one."""
    return IMPL.match(lines[at] if "{" in lines[at] else " ".join(map(str.strip, lines[at : at + 2]))) if lines[at].startswith("impl") else None


def named(kind: re.Match) -> str:
    """What the prover calls an `impl`: by its type, its trait, and what that is of but parameters."""
    of = re.findall(r"(?:^|, )(\w{2,})", re.sub(r"<[^<>]*>", "", kind["of"] or ""))
    return "".join([kind["type"], kind["trait"] or "", *of])


def indent(line: str) -> int:
    return len(line) - len(line.lstrip())


def lay_out(crate: proving.Crate, place: pathlib.Path) -> None:
    """A copy of the crate's sources in a folder."""
    for part in proving.PARTS:
        if (crate.folder / part).is_dir():
            shutil.copytree(crate.folder / part, place / part)


def plant(crate: proving.Crate, place: pathlib.Path, edit: Edit, number: int) -> str | None:
    """Puts the function of an edit, with the edit and under a name of its own, before the right one in a copy of the crate, with its proof.

    Answers its path, or nothing where that cannot be: where the edit is of no function or of several, of a function of a trait's impl, or of
    one of a cycle of calls.
    """
    if len(edit.functions) != 1:
        return None
    text, changed = edit.applied((crate.folder / edit.file).read_text())
    first, head, last = item(text.splitlines(), changed[0])
    block, kind = text.splitlines()[first : last + 1], owner(text.splitlines(), head)
    if kind and kind["trait"] or any("#[cycle" in it for it in block):
        return None
    name = HEAD.match(text.splitlines()[head])[2]
    new = f"{name}_planted_{number}"
    block[head - first] = re.sub(rf"\bfn {name}\b", f"fn {new}", block[head - first], count=1)
    lines = (place / edit.file).read_text().splitlines()
    right = lines.index((crate.folder / edit.file).read_text().splitlines()[head])
    at = item(lines, right)[0]
    (place / edit.file).write_text("\n".join([*lines[:at], *block, "", *lines[at:], ""]))
    for proof in proofs(crate.folder, edit.file, kind, name):
        own = ".".join(proof.parent.relative_to(crate.folder).parts)
        for file in (it for it in proof.rglob("*") if it.is_file()):
            to = place / proof.parent.relative_to(crate.folder) / new / file.relative_to(proof)
            to.parent.mkdir(parents=True, exist_ok=True)
            to.write_text(file.read_text().replace(f"{own}.{name}.", f"{own}.{new}."))
    return next(iter(edit.functions)).removesuffix(name) + new


def leave_out_bodies(place: pathlib.Path, kept: set[str]) -> None:
    """Leaves out the bodies of the functions of a copy of a crate, with their proofs, but of those with these names and of constants."""
    for file in (place / "src").rglob("*.rt"):
        lines = file.read_text().splitlines()
        for head in (at for at in range(len(lines) - 1, -1, -1) if (found := HEAD.match(lines[at])) and not found[1]):
            name, depth = HEAD.match(lines[head])[2], " " * indent(lines[head])
            if name in kept or (begin := body(lines, head)) is None:
                continue
            first, last = item(lines, head)[0], lines.index(depth + "}", begin)
            before = re.sub(rf"^{depth}#\[tactic\(.*?\)\]\n", "", "".join(f"{it}\n" for it in lines[first:head]), flags=re.S | re.M)
            for proof in proofs(place, str(file.relative_to(place)), owner(lines, head), name):
                shutil.rmtree(proof)
            stub = [f"{depth}#[tactic(none)]", *lines[head : begin + 1], f"{depth}    unreachable!()"]
            lines[first:last] = [*before.splitlines(), *stub]
        file.write_text("".join(f"{it}\n" for it in lines))


def body(lines: list[str], head: int) -> int | None:
    """The line on which the body of a function begins, or nothing where it has none or an empty one."""
    depth = " " * indent(lines[head])
    for at, line in enumerate(lines[head:], head):
        if line == depth + "{" or line.endswith("{") and (at == head or line.startswith(depth + ")")):
            return at
        if line == depth + "{}" or line.endswith((";", "{}")):
            return None
    return None


def proofs(folder: pathlib.Path, file: str, kind: re.Match | None, name: str) -> list[pathlib.Path]:
    """The folder with the proof of a function of a file, where it has one: of a method it stands beside those of its type, whose module may be
    another one than the file's."""
    if kind:
        return sorted(folder.glob(f"proofs/**/{kind['type']}/{name}"))
    words = pathlib.PurePath(file).with_suffix("").parts[1:]
    found = folder.joinpath("proofs", *([] if words in [("lib",), ("main",)] else words), name)
    return [found] if found.is_dir() else []


def item(lines: list[str], at: int) -> tuple[int, int, int]:
    """The first line of the function in which a line stands, with its docs and attributes, the one with its name, and its last one."""
    depth = indent(lines[at]) + bool(HEAD.match(lines[at]))
    head = next(it for it in range(at, -1, -1) if HEAD.match(lines[it]) and indent(lines[it]) < depth)
    first = next((it + 1 for it in range(head - 1, -1, -1) if not lines[it].strip() or lines[it].endswith("{")), 0)
    ends = (" " * indent(lines[head]) + "}", " " * indent(lines[head]) + "{}")
    return first, head, next(it for it in range(head, len(lines)) if lines[it] in ends)


def owner(lines: list[str], head: int) -> re.Match | None:
    """The `impl` in which a function stands, or nothing."""
    return next((kind for at in range(head - 1, -1, -1) if indent(lines[at]) < indent(lines[head]) and (kind := impl_at(lines, at))), None)


def check(crate: proving.Crate, edits: list[Edit], paths: Iterable[str]) -> tuple[int, str]:
    """Checks some functions of a crate with edits, all where none is named: the status, and what was said."""
    with tempfile.TemporaryDirectory() as folder:
        place = pathlib.Path(folder)
        lay_out(crate, place)
        for edit in edits:
            (place / edit.file).write_text(edit.applied((place / edit.file).read_text())[0])
        return checked(crate, place, paths)


def check_planted(crate: proving.Crate, edits: list[Edit]) -> tuple[str, dict[tuple[str, str], str]]:
    """Checks the functions of edits, planted beside the right ones: what was said, and the path of each edit that could be planted."""
    with tempfile.TemporaryDirectory() as folder:
        place = pathlib.Path(folder)
        lay_out(crate, place)
        paths = {edit[:2]: path for number, edit in enumerate(edits) if (path := plant(crate, place, edit, number))}
        leave_out_bodies(place, {path.rpartition("::")[2] for path in paths.values()})
        return checked(crate, place, paths.values())[1] if paths else "", paths


def checked(crate: proving.Crate, place: pathlib.Path, paths: Iterable[str]) -> tuple[int, str]:
    """Checks some functions of a copy of a crate, all where none is named: the status, and what was said."""
    words = [f"{proving.kit_folder()}/bin/rattle", "check", *proving.read_words(crate), *proving.proof_words(crate, 1)]
    words += ["--crate-type", "staticlib"] if crate.is_static else []
    words += [word for path in sorted(paths) for word in ("--only", path)]
    done = subprocess.run(words, cwd=place, stdin=subprocess.DEVNULL, stdout=subprocess.PIPE, stderr=subprocess.STDOUT, text=True)
    return done.returncode, done.stdout


def refused(said: str, functions: set[str]) -> str | None:
    """Why one of these functions is refused, or nothing. That it calls one which is refused says nothing of it."""
    for name, why in re.findall(r"^fn (\S+): (no.*)$", said, re.M):
        if any(name.endswith(f"::{it}") for it in functions) and not why.startswith(CALLS):
            return f"{name}: {why}"
    return None


def proved(said: str, functions: set[str]) -> bool:
    """Whether each of these functions is proved, or but calls one that is not."""
    names = re.findall(rf"^fn (\S+): (?:proved(?:, may wait)?$|{CALLS})", said, re.M)
    return all(any(name == it or name.endswith(f"::{it}") for name in names) for it in functions)


def judged(status: int, said: str) -> tuple[str, str]:
    """What a check of a whole crate says of an edit, and why."""
    lines = said.splitlines() or [""]
    if status == 0:
        return PROVED, ""
    if status == 1 and lines[-1].startswith("logic=not-proved"):
        return REFUSED, next((it for it in lines if re.match(r"(note: )?src/\S+:\d+:\d+:", it)), lines[-1])
    if status == 1 and (errors := [it for it in lines if "error[" in it]):
        return BAD, f"it does not compile: {errors[0]}"
    if status == 3:
        return UNSURE, "the prover could not tell"
    return UNSURE, lines[-1]


def tried(crate: proving.Crate, edits: list[Edit]) -> Iterator[Came]:
    """What the prover says of a crate with each of these wrong bodies, and why."""
    said, paths = check_planted(crate, edits)
    if len(paths) > 1 and not re.search(r"^fn ", said, re.M):
        # One of them doesn't compile, so nothing is said of any.
        for half in (edits[: len(edits) // 2], edits[len(edits) // 2 :]):
            yield from tried(crate, half)
        return
    for edit in edits:
        why = refused(said, {paths[edit[:2]]}) if edit[:2] in paths else None
        yield edit, *((REFUSED, why) if why else alone(crate, edit, REFUSED))


def plantable(crate: proving.Crate, edits: list[Edit]) -> list[Edit]:
    """Those of the edits that can be planted beside the right functions."""
    with tempfile.TemporaryDirectory() as folder:
        lay_out(crate, pathlib.Path(folder))
        return [edit for number, edit in enumerate(edits) if plant(crate, pathlib.Path(folder), edit, number)]


def accepted(crate: proving.Crate, edits: list[Edit]) -> Iterator[Came]:
    """What the prover says of a crate with each of these twins, and why."""
    said, paths = check_planted(crate, edits)
    for edit in edits:
        is_so = edit[:2] in paths and proved(said, {paths[edit[:2]]})
        yield edit, *((PROVED, "") if is_so else alone(crate, edit, PROVED))


def unharmed(crate: proving.Crate, edits: list[Edit]) -> Iterator[Came]:
    """What the prover says of the right functions, each planted once as the wrong bodies are: that shows what else an edit is refused for."""
    right = {frozenset(edit.functions): edit._replace(pairs=[(old, old) for old, _ in edit.pairs]) for edit in edits}
    said, paths = check_planted(crate, list(right.values()))
    for edit in right.values():
        path = {paths[edit[:2]]}
        yield edit, PROVED if proved(said, path) else REFUSED, refused(said, path) or ""


def alone(crate: proving.Crate, edit: Edit, wanted: str) -> tuple[str, str]:
    """What it says of a crate with one edit, in its place: of the functions that it changes, or of the whole crate where it changes none, and
    where a wrong body is proved, since another function may be refused then."""
    if edit.functions:
        status, said = check(crate, [edit], edit.functions)
        if wanted == REFUSED and (why := refused(said, edit.functions)):
            return REFUSED, why
        if wanted == PROVED and status == 0 and proved(said, edit.functions):
            return PROVED, ""
    return judged(*check(crate, [edit], ()))


def edits_of(crate: proving.Crate, kept: str) -> tuple[list[Edit], list[tuple[str, Exception]]]:
    """The edits of a crate that stand in a folder of it, and those that are unfit, each with the reason."""
    edits, unfit = [], []
    for file in sorted((crate.folder / kept).glob("*.edit")):
        try:
            edits.append(read(file, crate))
        except (Unfit, OSError) as error:
            unfit.append((file.name, error))
    return edits, unfit


def folders(kinds: tuple[str, ...], names: Iterable[str]) -> list[tuple[proving.Crate, str]]:
    """The crates of these names, or all where none is named, each with its folders of edits of these kinds; none where one has no such folder."""
    found = [(crate, kind) for crate in proving.workspace().values() for kind in kinds if (crate.folder / kind).is_dir()]
    known = list(dict.fromkeys(crate.name for crate, _ in found))
    if any(it not in known for it in names):
        print(f"Crates with {' or '.join(kinds)}: {', '.join(known)}", file=sys.stderr)
        return []
    return [it for it in found if not names or it[0].name in names]


def shares(tried: dict[str, int]) -> list[str]:
    """How many wrong bodies of each crate were tried, of how many there are; and the crates of which none was."""
    kinds = ("must-fail", "attacks")
    them = {it.name: sum(len(list(it.folder.glob(f"{kind}/*.edit"))) for kind in kinds) for it in proving.workspace().values()}
    some = ", ".join(f"{name} {tried[name]} of {count}" for name, count in them.items() if tried.get(name))
    none = ", ".join(f"{name} {count}" for name, count in them.items() if count and not tried.get(name))
    lines = [f"wrong bodies: {sum(tried.values())} of {sum(them.values())} were tried: {some}"]
    return [*lines, f"wrong bodies: none was tried of {none}"] if none else lines


def run(title: str, tries: list[tuple[proving.Crate, str]], trial: Trial, wanted: str, is_planted_alone: bool = False) -> int:
    """Tries the edits that stand in folders of crates, many of a crate by one check, or those alone that can be planted: each by a trial that
    must come to what is wanted.

    Prints what each came to, and answers the status of a command.
    """
    if status := proving.build(title, [below.name for crate, _ in tries for below in crate.direct]):
        return status
    count, alone_refused = {True: 0, False: 0}, set(without_twins(ROOT))
    named = []

    def tell(crate, folder, name, kind, why):
        count[kind == wanted] += 1
        if kind == REFUSED == wanted and f"{crate.name}/{name}" in alone_refused:
            named.append(name)
            kind += " (another shape, and no twin)"
        print(f"{folder} {crate.name}/{name}: {kind}{': ' if why else ''}{why}", flush=True)

    def try_all(crate, edits):
        for edit, kind, why in trial(crate, edits):
            tell(crate, edit.folder, edit.name, kind, why)

    of_crates = {}
    for crate, folder in tries:
        edits, unfit = edits_of(crate, folder)
        for name, why in unfit:
            tell(crate, folder, name, BAD, why)
        of_crates.setdefault(crate, []).extend(plantable(crate, edits) if is_planted_alone else edits)
    with concurrent.futures.ThreadPoolExecutor(proving.processors()) as lanes:
        parts = [(crate, edits[at : at + TOGETHER]) for crate, edits in of_crates.items() for at in range(0, len(edits), TOGETHER)]
        for it in [lanes.submit(try_all, *part) for part in parts]:
            it.result()
    if wanted == REFUSED:
        print("\n".join(shares({crate.name: len(edits) for crate, edits in of_crates.items()})))
    if named:
        print(f"{len(named)} of them change a shape and have no twin: that these are refused says less of the contract")
    print(f"{count[True]} passed, {count[False]} failed")
    return 1 if count[False] else 0
