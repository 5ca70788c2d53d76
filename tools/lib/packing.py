"""What the archives of tools/package have in common: files by name, the same bytes of the same commit, and what the gate said of it."""

import collections.abc
import functools
import gzip
import hashlib
import io
import pathlib
import re
import tarfile
import typing

from lib import ROOT, proving, targets

RECORD = ROOT / "out" / "gate-record"
OWN_LICENCES = ("LICENSE", "LICENSE-APACHE", "LICENSE-MIT")


class Entry(typing.NamedTuple):
    """A file of an archive, with whether it can be run; or a link, if it leads to something."""

    content: bytes = b""
    is_program: bool = False
    leads_to: str = ""


Files = dict[str, Entry]


@functools.cache
def git(*words: str) -> str:
    return targets.run(["git", "-C", ROOT, *words]).strip()


def commit() -> str:
    return git("rev-parse", "HEAD")


def moment() -> int:
    """The time of the commit, which each file has."""
    return int(git("log", "-1", "--format=%ct"))


def is_changed() -> bool:
    return bool(git("status", "--porcelain"))


def record(is_wanted: bool) -> str:
    """What the gate said of this commit."""
    said = RECORD.read_text() if RECORD.exists() else ""
    if f"commit {commit()}\n" in said and said.endswith(" 0 failed\n"):
        return said
    if is_wanted:
        raise targets.Failed("out/gate-record is not of this commit, or says that something failed: run tools/gate, or add --without-record")
    return "The gate was not run of this commit.\n"


def versions() -> list[str]:
    """The release, and the number of the structs for C."""
    text = (targets.INCLUDE / "dali_c.h").read_text()
    return [text.partition(f"#define {name} ")[2].partition("\n")[0].strip('"') for name in ("DALI_VERSION", "DALI_C_VERSION")]


def licences(crates: collections.abc.Iterable[str]) -> collections.abc.Iterator[tuple[str, pathlib.Path]]:
    """The licences of this repository, and of crates of the kit that are linked, each with its name in the archive."""
    yield from ((f"licences/{name}", ROOT / name) for name in OWN_LICENCES)
    for crate in crates:
        yield from ((f"licences/{crate}/{it.name}", it) for it in sorted((proving.kit_folder() / "rattle" / crate).glob("LICENSE*")))


def links(page: pathlib.Path) -> list[pathlib.Path]:
    """The files that a page leads to."""
    text = re.sub(r"```.*?```|`[^`\n]*`", "", page.read_text(), flags=re.S) if page.suffix == ".md" else ""
    found = (it.partition("#")[0] for it in re.findall(r"\]\(([^)\s]+)\)", text) if not re.match(r"\w+:", it))
    return [(page.parent / it).resolve() for it in found if it]


def manual(*names: str) -> list[pathlib.Path]:
    """These pages of docs/, with all that they lead to."""
    found = [ROOT / "docs" / it for it in names]
    for page in found:
        found += [it for it in dict.fromkeys(links(page)) if it not in found]
    return found


def read(*them: pathlib.Path) -> Files:
    """Files of the repository, by their places in it."""
    return {str(it.relative_to(ROOT)): Entry(it.read_bytes(), bool(it.stat().st_mode & 0o100)) for it in them}


def summed(files: Files) -> Files:
    """The files, with the sum of each."""
    sums = [f"{hashlib.sha256(it.content).hexdigest()}  {name}\n" for name, it in sorted(files.items()) if not it.leads_to]
    return {**files, "SHA256SUMS": Entry("".join(sums).encode())}


def packed(title: str, files: Files) -> bytes:
    """An archive of files below a folder of this name, with their sums: in order, and as old as the commit."""
    made = io.BytesIO()
    with gzip.GzipFile(fileobj=made, mode="wb", mtime=moment(), filename="") as packing:
        with tarfile.open(fileobj=packing, mode="w", format=tarfile.USTAR_FORMAT) as tar:
            for name, it in sorted(summed(files).items()):
                entry = tarfile.TarInfo(f"{title}/{name}")
                entry.size, entry.mtime, entry.mode = len(it.content), moment(), 0o755 if it.is_program else 0o644
                if it.leads_to:
                    entry.type, entry.linkname, entry.mode = tarfile.SYMTYPE, it.leads_to, 0o777
                tar.addfile(entry, io.BytesIO(it.content))
    return made.getvalue()
