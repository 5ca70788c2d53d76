"""The whole run: each check that is too long for the gate, with its full words, and what its last run came to.

A check passes with status 0. What it came to is a line of RECORD: its name, the commit, when it ended, its seconds, its seed, and its last
line. Whoever has made a whole run commits that file, so everyone sees at which commit each check passed last. FOUND has the command lines
that found a fault: the gate runs each of them.
"""

import concurrent.futures
import os
import pathlib
import random
import shlex
import shutil
import subprocess
import time
import typing
from collections.abc import Iterator

from lib import ROOT

RECORD = ROOT / "tools" / "lib" / "whole-record.txt"
FOUND = ROOT / "tools" / "lib" / "found-faults.txt"
LOGS = ROOT / "out" / "whole"
# What a command is in: the package of Debian that has it.
PACKAGES = {
    "arm-none-eabi-gcc": "gcc-arm-none-eabi", "cargo": "cargo", "cc": "gcc", "chromium": "chromium", "debootstrap": "debootstrap",
    "lintian": "lintian", "mkfs.ext4": "e2fsprogs", "qemu-aarch64": "qemu-user", "qemu-system-arm": "qemu-system-arm",
    "sigrok-cli": "sigrok-cli libsigrokdecode4", "sshd": "openssh-server", "strace": "strace", "valgrind": "valgrind",
}
PROGRAMS = ("crates", "yolgibat")
LIBRARY = ("crates/dali_c", "crates/dali_controller", "crates/dali_port", "crates/dali_wire", "include", "examples", "tools/lib")


class Check(typing.NamedTuple):
    """A check: its minutes on a quiet machine, by which the longest comes first; its words; what it wants; the folders that it covers."""

    minutes: int
    words: str
    wants: tuple[str, ...] = ()
    covers: tuple[str, ...] = PROGRAMS

    def missing(self) -> list[str]:
        """The packages that it wants and this machine lacks."""
        return [PACKAGES[it] for it in self.wants if not shutil.which(it)]

    def changed(self, commit: str) -> list[str]:
        """The files that it covers which have changed since a commit, also those that are not committed."""
        words = ["git", "diff", "--name-only", commit, "--", *self.covers, self.words.split()[0]]
        ran = subprocess.run(words, cwd=ROOT, capture_output=True, text=True)
        return ran.stdout.split() if ran.returncode == 0 else list(self.covers)


CHECKS = (
    Check(90, "tools/attack", covers=("crates",)),
    Check(60, "tools/twins", covers=("crates",)),
    Check(60, "tools/check/port --frames 1000000 --sites 100 --seed SEED", ("cc",), LIBRARY),
    Check(40, "tools/check/c-cross --seed SEED", ("arm-none-eabi-gcc", "qemu-aarch64", "qemu-system-arm"), LIBRARY),
    Check(40, "tools/check/replaced --sites 40 --stops 0 --calls 0 --seed SEED", ("cc",)),
    Check(30, "tools/check/mended --sites 40 --seed SEED"),
    Check(30, "tools/check/spi --seed SEED", ("cc",), (*LIBRARY, "adapters")),
    Check(20, "tools/check/commission-sites --sites 100 --seed SEED", ("mkfs.ext4",), (*PROGRAMS, "adapters")),
    Check(20, "tools/check/c-library --seed SEED", ("cc", "valgrind"), LIBRARY),
    Check(15, "tools/check/interface --seed SEED", ("qemu-system-arm",), (*LIBRARY, "adapters")),
    Check(15, "tools/check/hammer --runs 20000 --seed SEED"),
    Check(15, "tools/check/packages --built", ("debootstrap", "lintian"), ("yolgibat", "tools", "docs")),
    Check(15, "tools/check/captures --seed SEED", covers=("crates/dali_capture", "crates/dali_audit", "crates/dali_audit_program")),
    Check(10, "tools/check/building --buses 60", covers=("yolgibat",)),
    Check(5, "tools/check/building --faults", covers=("yolgibat",)),
    Check(10, "tools/check/building --delays", covers=("yolgibat",)),
    Check(5, "tools/check/building --ssh", ("sshd",), ("yolgibat",)),
    Check(5, "tools/check/building --page", ("chromium",), ("yolgibat",)),
    Check(10, "tools/check/page", ("chromium",), ("yolgibat",)),
    Check(10, "tools/check/viewer --seed SEED", ("chromium",), ("yolgibat",)),
    Check(10, "tools/check/web --seed SEED", ("chromium",), ("yolgibat", "extra", "tools/lib/web")),
    Check(10, "tools/check/audits --seed SEED"),
    Check(5, "tools/check/stories --examples --sites 100", covers=("crates", "yolgibat", "examples")),
    Check(5, "tools/check/stories --schema", covers=("docs", "yolgibat")),
    Check(5, "tools/check/threads-loop --runs 2000 --seed SEED"),
    Check(5, "tools/check/refuse-threads", ("cc",)),
    Check(5, "tools/check/soak --seed SEED", covers=("crates", "extra")),
    Check(2, "tools/check/store-on-disk", ("cc",), ("crates", "extra")),
    Check(2, "tools/check/ring-calls", covers=("crates/dali_ring", "extra")),
    Check(2, "tools/check/troubles"),
    Check(2, "tools/check/limits"),
    Check(2, "tools/trace", ("sigrok-cli",), ("yolgibat",)),
)


class Passed(typing.NamedTuple):
    """A line of the record: a check passed at this commit."""

    words: str
    commit: str
    date: str
    seconds: str
    seed: str
    counted: str


def record() -> dict[str, Passed]:
    """What each check came to last, by its words."""
    lines = RECORD.read_text().splitlines() if RECORD.exists() else []
    return {it.words: it for it in (Passed(*line.split("\t")) for line in lines if line and not line.startswith("#"))}


def found_faults() -> list[list[str]]:
    """The command lines that found a fault, which the gate runs."""
    return [shlex.split(line) for line in FOUND.read_text().splitlines() if line and not line.startswith("#")]


def note(passed: Passed) -> None:
    """Puts a line into the record, in place of the earlier one of this check."""
    lines = {**record(), passed.words: passed}
    RECORD.write_text("# Each check of the whole run: its commit, end, seconds, seed and last line. tools/gate --whole writes this.\n"
                      + "".join("\t".join(it) + "\n" for it in lines.values()))


def make(check: Check, commit: str) -> tuple[bool, str, pathlib.Path, Passed]:
    """Makes a check: whether it passed, and its line. What it wrote is in LOGS."""
    seed = str(random.SystemRandom().randrange(2**31)) if "SEED" in check.words else "-"
    words, begun = check.words.replace("SEED", seed), time.monotonic()
    log = LOGS / f"{check.words.replace('tools/', '').replace('/', '-').replace(' ', '_')}.txt"
    with open(log, "w") as out:
        ran = subprocess.run(shlex.split(words), cwd=ROOT, stdin=subprocess.DEVNULL, stdout=out, stderr=subprocess.STDOUT)
    last = [*log.read_text(errors="replace").split("\n"), ""]
    counted = next((it.strip() for it in reversed(last) if it.strip()), "")[:100].replace("\t", " ")
    date = time.strftime("%Y-%m-%d %H:%M", time.gmtime())
    return ran.returncode == 0, words, log, Passed(check.words, commit, date, f"{time.monotonic() - begun:.0f}", seed, counted)


def run(commit: str, is_changed: bool) -> tuple[int, int]:
    """Makes each check that has not passed at this commit, the longest first, so many side by side as there are processors.

    How many passed, and how many failed: one that cannot be made here has failed."""
    LOGS.mkdir(parents=True, exist_ok=True)
    before = record()
    due = [it for it in CHECKS if is_changed or it.words not in before or before[it.words].commit != commit]
    lacking = [it for it in due if it.missing()]
    for it in lacking:
        print(f"whole: {it.words}: cannot be run: sudo apt-get install {' '.join(it.missing())}")
    passed, failed = len(CHECKS) - len(due), len(lacking)
    ready = sorted((it for it in due if it not in lacking), key=lambda it: -it.minutes)
    with concurrent.futures.ThreadPoolExecutor(len(os.sched_getaffinity(0))) as lanes:
        for done in concurrent.futures.as_completed([lanes.submit(make, it, commit) for it in ready]):
            is_well, words, log, line = done.result()
            print(f"whole: {words}: {'passed' if is_well else f'FAILED, see {log}'}, after {line.seconds} s: {line.counted}", flush=True)
            passed, failed = passed + is_well, failed + (not is_well)
            if is_well and not is_changed:
                note(line)
            elif not is_well and line.seed != "-":
                with open(FOUND, "a") as found:
                    found.write(words + "\n")
    return passed, failed


def status() -> Iterator[str]:
    """The record as lines: each check, where it passed last, and how many files that it covers have changed since."""
    before = record()
    for it in CHECKS:
        last = before.get(it.words)
        if last is None:
            yield f"{it.words}: never passed"
        else:
            since = len(it.changed(last.commit))
            yield f"{it.words}: {last.commit[:8]}, {last.date}, {last.seconds} s, seed {last.seed}, {since} files since: {last.counted}"


def whole(root: pathlib.Path) -> Iterator[str]:
    """Checks of the whole run that never passed, or not since a file changed that they cover: tools/gate --whole runs them."""
    if root != ROOT or not (ROOT / ".git").exists():
        return
    before = record()
    for it in CHECKS:
        if it.words not in before:
            yield f"{it.words}: never passed"
        elif it.changed(before[it.words].commit):
            yield f"{it.words}: passed last at {before[it.words].commit[:8]}"
