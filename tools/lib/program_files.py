"""What somebody uses who has no kit, as files of an archive: the programs, their launchers, adapters, examples, manuals and licences.

What runs are the launchers, the folders of RUNS and the programs. tools/lib/packaged has files for Debian alone.
"""

import pathlib
import re

from lib import ROOT, manual_pages, packing, proving, targets
from lib.packing import Entry, Files

LAUNCHERS = ("dali_commission", "dali_sim", "dali_view")
PACKAGED = ROOT / "tools/lib/packaged"
# What runs, beside the launchers and the programs: all files of these folders.
RUNS = ("yolgibat", "adapters", "include")
# A launcher as it is called in a clone, in a text of a launcher or a tool.
IN_CLONE = re.compile(rb"\./dali_(commission|sim|view)\b")
# The pages for installers. What they lead to beside these and their pictures is left out, and so are the links to it.
MANUALS = ("INSTALLER", "BUILDING", "ADAPTERS", "INTERFACE", "FORMAT", "STORES", "GLOSSARY", "PROMISE", "RULES")
# The page on which scripts are played in a browser. It is taken along if it was made.
TRY = ROOT / "out/web/try.html"
LINK = re.compile(r"(?<!!)\[((?:[^\[\]]|\[[^\]]*\])*)\]\(((?!\w+:)[^)\s#]+)(?:#[^)\s]*)?\)")
README = """Yolgibat {version}: short addresses for DALI lighting

This folder runs where it lies, on Linux for {machine} with Python 3.10 or later:

    ./dali-commission run --records site.db --driver 'adapters/simulated bus.json --gear 20' 0-63
    ./dali-commission table --records site.db
    ./dali-sim replay < examples/plain-path.txt

The first gives 20 simulated gear their addresses. docs/INSTALLER.md is the manual, and each of dali-commission, dali-sim and dali-view has
--help, and a page: man -l man/dali-commission.1. completions has what bash, zsh and fish complete. To remove all, remove this folder.
{tried}COMMIT, GATE: of which commit this is, and what its tests said. SHA256SUMS: sha256sum --check SHA256SUMS.
"""


def programs() -> list[proving.Crate]:
    return [it for it in proving.workspace().values() if it.is_program and it.folder.parent == proving.CRATES]


def missing() -> list[str]:
    return targets.missing([targets.KIT])


def built() -> dict[str, bytes]:
    """The proved programs, which are built first where they are missing or older than their sources."""
    them = programs()
    if proving.build("package", [it.name for it in them]):
        raise targets.Failed("not all programs are built")
    return {it.name: it.made.read_bytes() for it in them}


def kit_crates(made: list[proving.Crate] | None = None) -> list[str]:
    """The crates of the kit that the programs, or what is named, are linked with."""
    below = {it for top in made or programs() for crate in [*top.below, top] for it in crate.of_kit} | {"std"}
    left, found = list(below), set()
    while left:
        name = left.pop()
        form = proving.kit_folder() / f"rlibs/{name}.rlib/format"
        if name not in found and form.is_file():
            found.add(name)
            left += re.findall(r"^(?:dep|over) (\w+)", form.read_text(), re.M)
    return sorted(found)


def files(folder: pathlib.Path) -> list[pathlib.Path]:
    """The files below a folder, but not what Python makes of them, and no tests."""
    return [it for it in folder.rglob("*") if it.is_file() and not {"__pycache__", "tests"} & {*it.relative_to(folder).parts}]


def running(made: dict[str, bytes], is_installed: bool = False) -> Files:
    """What runs. Once it is installed, the texts name the launchers as they are called then."""
    found = packing.read(*(ROOT / it for it in LAUNCHERS), *(file for it in RUNS for file in files(ROOT / it)))
    for name, it in found.items():
        if name.startswith("yolgibat/help/"):
            text = it.content.decode()
            found[name] = it._replace(content=(manual_pages.spoken(text) if is_installed else manual_pages.BUILD.sub("", text)).encode())
        elif is_installed:
            found[name] = it._replace(content=IN_CLONE.sub(rb"dali-\1", it.content))
    return found | {f"programs/{name}": Entry(content, True) for name, content in made.items()}


def manuals() -> Files:
    """The pages for installers, with their pictures."""
    pages = [ROOT / "CHANGELOG.md", *(ROOT / f"docs/{it}.md" for it in MANUALS)]
    found = {*pages, *(it for page in pages for it in packing.links(page) if it.suffix in (".png", ".json"))}

    def kept(page: pathlib.Path) -> str:
        return LINK.sub(lambda it: it[0] if (page.parent / it[2]).resolve() in found else it[1], page.read_text())

    return packing.read(*found) | {str(it.relative_to(ROOT)): Entry(kept(it).encode()) for it in pages}


def told(said: str) -> Files:
    """Of which commit it is, and what the gate said of it."""
    return {"COMMIT": Entry(f"{packing.commit()}\n".encode()), "GATE": Entry(said.encode())}


def examples() -> Files:
    """The examples, and the page on which they are played."""
    page = {TRY.name: Entry(TRY.read_bytes())} if TRY.is_file() else {}
    return packing.read(*(it for it in (ROOT / "examples").glob("*") if it.is_file())) | page


def licences() -> Files:
    return {name: Entry(file.read_bytes()) for name, file in packing.licences(kit_crates())}


def folder(made: dict[str, bytes], said: str, machine: str, licences: Files) -> Files:
    """What the folder has that runs where it is unpacked."""
    found = {**running(made), **examples(), **manuals(), **told(said)}
    found |= {it.replace("_", "-"): Entry(leads_to=it) for it in LAUNCHERS}
    found |= {f"man/{name}": Entry(text.encode()) for name, text in manual_pages.pages().items()}
    found |= {f"completions/{it.name}": Entry(it.read_bytes()) for it in PACKAGED.glob("completion.*")}
    tried = f"{TRY.name} plays scripts in a browser.\n" if TRY.name in found else ""
    return found | licences | {"README": Entry(README.format(version=packing.versions()[0], machine=machine, tried=tried).encode())}


def archive(said: str) -> dict[str, bytes]:
    """The archive by its name."""
    title = f"yolgibat-{packing.versions()[0]}-x86_64-linux"
    return {f"{title}.tar.gz": packing.packed(title, folder(built(), said, "x86-64", licences()))}
