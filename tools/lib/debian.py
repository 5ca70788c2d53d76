"""The package of the programs for Debian, made by dpkg-deb of the files of tools/lib/program_files.py."""

import gzip
import hashlib
import os
import pathlib
import re
import shutil
import tempfile
import time

from lib import ROOT, manual_pages, packing, program_files, targets
from lib.packing import Entry, Files

ARCHITECTURE = "amd64"
HOME, DOC = "usr/lib/yolgibat", "usr/share/doc/yolgibat"
# Where the completions of each shell are looked for: by the name of a command, but for zsh.
SHELLS = {"bash": "usr/share/bash-completion/completions/{}", "fish": "usr/share/fish/vendor_completions.d/{}.fish"}
# Files of tools/lib/packaged that stand elsewhere.
PLACES = {
    "nightly": f"{HOME}/nightly",
    "yolgibat-check@.service": "usr/lib/systemd/system/yolgibat-check@.service",
    "yolgibat-check@.timer": "usr/lib/systemd/system/yolgibat-check@.timer",
    "yolgibat.desktop": "usr/share/applications/yolgibat.desktop",
    "yolgibat.svg": "usr/share/icons/hicolor/scalable/apps/yolgibat.svg",
    "completion.zsh": "usr/share/zsh/vendor-completions/_yolgibat",
    "overrides": "usr/share/lintian/overrides/yolgibat",
}
SCRIPTS = ("postinst", "prerm", "postrm")
# A folder for the settings of a site, which is empty.
SETTINGS = "etc/yolgibat"
COPYRIGHT = """Yolgibat: short addresses for DALI lighting, proved

{own}
The Apache License, Version 2.0, is /usr/share/common-licenses/Apache-2.0.

The programs are linked with code of the Rattle kit. What has a licence of its own there follows; where it names the
Apache License, that is the one above.
"""


def missing() -> list[str]:
    return [] if shutil.which("dpkg-deb") else ["dpkg-deb: install Debian's package dpkg"]


def zipped(text: str) -> Entry:
    return Entry(gzip.compress(text.encode(), 9, mtime=0))


def maintainer() -> str:
    return packing.git("log", "-1", "--format=%an <%ae>")


def changelog() -> str:
    """The changelog as Debian reads it. What is new stands in CHANGELOG.md."""
    date = time.strftime("%a, %d %b %Y %H:%M:%S +0000", time.gmtime(packing.moment()))
    return f"yolgibat ({packing.versions()[0]}) stable; urgency=medium\n\n  * What is new stands in CHANGELOG.md.\n\n -- {maintainer()}  {date}\n"


def copyright_text() -> str:
    """The licences of this repository, and of the code of the kit that is linked. Equal texts stand once."""
    found: dict[str, list[str]] = {}
    for name, file in packing.licences(program_files.kit_crates()):
        if name.count("/") == 2 and "Apache License" not in file.read_text()[:200]:
            found.setdefault(file.read_text(), []).append(name.split("/")[1])
    own = "".join((ROOT / it).read_text() + "\n" for it in ("LICENSE", "LICENSE-MIT"))
    return COPYRIGHT.format(own=own) + "".join(f"\n{', '.join(them)}:\n\n{text}" for text, them in sorted(found.items(), key=lambda it: it[1]))


def files(made: dict[str, bytes], said: str) -> Files:
    """What is installed, by its place below the root."""
    found = {f"{HOME}/{name}": it for name, it in program_files.running(made, is_installed=True).items()}
    for it in program_files.LAUNCHERS:
        name = it.replace("_", "-")
        found |= {f"usr/bin/{name}": Entry(leads_to=f"../lib/yolgibat/{it}"), f"usr/bin/{it}": Entry(leads_to=name)}
        found[f"usr/share/man/man1/{it}.1.gz"] = Entry(leads_to=f"{name}.1.gz")
    read = {**program_files.examples(), **program_files.manuals(), **program_files.told(said)}
    found |= {f"{DOC}/{name}": Entry(it.content) for name, it in read.items()}
    found |= {f"{DOC}/copyright": Entry(copyright_text().encode()), f"{DOC}/changelog.gz": zipped(changelog())}
    for name, text in manual_pages.pages().items():
        found[f"usr/share/man/man{name[-1]}/{name}.gz"] = zipped(text)
    for shell, place in SHELLS.items():
        found[place.format("yolgibat")] = Entry((program_files.PACKAGED / f"completion.{shell}").read_bytes())
        leads = pathlib.PurePath(place.format("yolgibat")).name
        found |= {place.format(name): Entry(leads_to=leads) for it in program_files.LAUNCHERS for name in (it, it.replace("_", "-"))}
    return found | {place: Entry((program_files.PACKAGED / name).read_bytes(), name == "nightly") for name, place in PLACES.items()}


def libc(made: dict[str, bytes]) -> str:
    """The oldest C library that has all that the programs ask for."""
    asked = {tuple(map(int, it.split(b"."))) for content in made.values() for it in re.findall(rb"\0GLIBC_([0-9]+(?:\.[0-9]+)+)", content)}
    return ".".join(map(str, max(asked, default=(2, 17))))


def control(found: Files, made: dict[str, bytes]) -> Files:
    """What Debian is told of the package."""
    size = sum(-(-len(it.content) // 1024) for it in found.values())
    values = {"version": packing.versions()[0], "architecture": ARCHITECTURE, "maintainer": maintainer(), "size": size, "libc": libc(made)}
    sums = [f"{hashlib.md5(it.content).hexdigest()}  {name}\n" for name, it in sorted(found.items()) if not it.leads_to]
    told = {"control": (program_files.PACKAGED / "control").read_text().format(**values), "md5sums": "".join(sums)}
    scripts = {it: Entry((program_files.PACKAGED / it).read_bytes(), True) for it in SCRIPTS}
    return {f"DEBIAN/{name}": it for name, it in ({name: Entry(text.encode()) for name, text in told.items()} | scripts).items()}


def lay_out(found: Files, place: pathlib.Path) -> None:
    """Makes the files below a folder, each as old as the commit."""
    for name, it in found.items():
        file = place / name
        file.parent.mkdir(parents=True, exist_ok=True)
        if it.leads_to:
            file.symlink_to(it.leads_to)
        else:
            file.write_bytes(it.content)
            file.chmod(0o755 if it.is_program else 0o644)
    (place / SETTINGS).mkdir(parents=True, exist_ok=True)
    for file in [*place.rglob("*"), place]:
        if file.is_dir() and not file.is_symlink():
            file.chmod(0o755)
        os.utime(file, (packing.moment(), packing.moment()), follow_symlinks=False)


def archive(said: str, made: dict[str, bytes] | None = None) -> dict[str, bytes]:
    """The package by its name."""
    made = made or program_files.built()
    found = files(made, said)
    name = f"yolgibat_{packing.versions()[0]}_{ARCHITECTURE}.deb"
    with tempfile.TemporaryDirectory() as folder:
        place = pathlib.Path(folder) / "tree"
        lay_out({**found, **control(found, made)}, place)
        words = ["dpkg-deb", "--root-owner-group", "-Zxz", "-z6", "--threads-max=1", "--build", place, pathlib.Path(folder) / name]
        targets.run(words, env={**os.environ, "SOURCE_DATE_EPOCH": str(packing.moment())})
        return {name: (pathlib.Path(folder) / name).read_bytes()}
