"""How the library for C is built for other processors than that of the kit, and how a program in C is linked with it and run.

The kit builds the library for Linux on x86-64. What it hands to its clang is LLVM's form of the proved library, and that is
compiled here for each other processor, by the same clang.
"""

import collections.abc
import pathlib
import re
import shlex
import shutil
import subprocess
import time
import typing

from lib import ROOT, layouts, proving
from yolgibat import standard

BARE = ROOT / "tools/lib/bare"
EXAMPLE = ROOT / "examples" / "c"
FIRMWARE = ROOT / "examples" / "firmware"
# What it takes of the other example.
AT_PINS = ("gear.c", "line.c", "pins.c")
INCLUDE = ROOT / "include"
MOST_SECONDS = 1800
BOARD = ["qemu-system-arm", "-nographic", "-monitor", "none", "-serial", "none"]
BOARD += ["-chardev", "stdio,id=said", "-semihosting-config", "enable=on,target=native,chardev=said"]
# A processor that takes 128 ns for each instruction, which tools/lib/bare/program.c knows.
COUNTED = ["-icount", "shift=7,sleep=off"]
BOUND = re.compile(r"\bframe-bytes=(\d+) stack-bytes=(\d+)(?!\+)\b")


class Failed(Exception):
    """What cannot be built, linked or run, and why."""


class Target(typing.NamedTuple):
    """A processor: LLVM's name of it, words of the compiler, what a program begins with and how it is linked, the command
    that runs it, and Debian's package of that."""

    triple: str
    words: list[str]
    start: list[pathlib.Path]
    link: list[str | pathlib.Path]
    run: list[str]
    package: str = ""


ARM = [BARE / "support.c", BARE / "aeabi.c", BARE / "memory.c"], ["-T", BARE / "program.ld", "-e", "reset"]
LINUX = [BARE / "linux.c", BARE / "memory.c"], ["-e", "begin"]
SYSTEM = "qemu-system-arm"
# No instruction of a unit for floating point; and, as no number of that kind is handed over, a mark (Tag_ABI_VFP_args) by which linkers
# take the objects into programs that hand them over in registers of that unit, and into others.
WITHOUT_UNIT = ("-mfpu=none",)
EITHER_WAY = 'module asm ".eabi_attribute 28, 3"'


def bare(triple: str, board: str, *more: str, words: tuple[str, ...] = ()) -> Target:
    """A bare Arm processor, on a simulated board."""
    return Target(triple, [*words], *ARM, [*BOARD, *more, "-M", board, "-kernel"], SYSTEM)


# The first is the kit's own.
TARGETS = {
    "x86_64-linux": Target("x86_64-unknown-linux-gnu", [], *LINUX, []),
    "aarch64-linux": Target("aarch64-unknown-linux-gnu", [], *LINUX, ["qemu-aarch64"], "qemu-user"),
    "thumbv6m": bare("thumbv6m-none-eabi", "mps2-an385"),
    "thumbv7em": bare("thumbv7em-none-eabi", "mps2-an386", words=WITHOUT_UNIT),
    "riscv32": Target("riscv32-unknown-elf", ["-march=rv32imac", "-mabi=ilp32"], *LINUX, ["qemu-riscv32"], "qemu-user"),
}
KIT = TARGETS["x86_64-linux"]
# The library as LLVM reads it, for whichever clang: by how many bits a pointer has, the processor by whose layout of data it is written.
PORTABLE = {"64": "aarch64-linux", "32": "riscv32"}
# Processors that no archive is for, by which it is tried; the first one is run.
OTHERS = {
    "riscv64": ("64", Target("riscv64-unknown-elf", ["-march=rv64imac", "-mabi=lp64", "-mcmodel=medany"], *LINUX, ["qemu-riscv64"], "qemu-user")),
    "armv7a": ("32", Target("armv7a-none-eabi", ["-mfloat-abi=soft", "-mfpu=none"], *LINUX, [])),
}
# Every browser: what tools/web makes of dali_web.
WASM = Target("wasm32-unknown-unknown", ["-mbulk-memory"], [], [], [])
# What instructions are counted on: two of these, and a processor between them.
MEASURED = {
    "thumbv6m": bare("thumbv6m-none-eabi", "mps2-an385", *COUNTED),
    "thumbv7m": bare("thumbv7m-none-eabi", "mps2-an385", *COUNTED),
    "thumbv7em": bare("thumbv7em-none-eabi", "mps2-an386", *COUNTED, words=WITHOUT_UNIT),
    "riscv32": Target(
        "riscv32-unknown-elf", ["-march=rv32imac", "-mabi=ilp32"], [BARE / "board.c", BARE / "memory.c"],
        ["-T", BARE / "board.ld", "-e", "reset"],
        ["qemu-system-riscv32", "-icount", "shift=0", "-display", "none", "-monitor", "none", "-serial", "stdio", "-M", "virt", "-bios",
         "none", "-kernel"], "qemu-system-misc",
    ),
    "aarch64": Target(
        "aarch64-unknown-none-elf", [], [BARE / "board.c", BARE / "memory.c"], ["-T", BARE / "board64.ld", "-e", "reset"],
        [SYSTEM.replace("arm", "aarch64"), "-icount", "shift=0", "-display", "none", "-monitor", "none", "-serial", "stdio", "-M", "virt", "-nic", "none",
         "-cpu", "cortex-a57", "-semihosting", "-kernel"], SYSTEM,
    ),
}


def missing(targets: collections.abc.Iterable[Target]) -> list[str]:
    """What is not there and is needed, with Debian's name of it."""
    wanted = {it.run[0]: it.package for it in targets if it.run}
    found = [f"{name}: install Debian's package {package}" for name, package in wanted.items() if not shutil.which(name)]
    return found + ([] if shutil.which("rt") else ["rt: README.md says how the Rattle kit is set up"])


def run(words: collections.abc.Sequence[str | pathlib.Path], **how: typing.Any) -> str:
    """What a command writes to its standard output."""
    how = {"stdin": subprocess.DEVNULL, "stdout": subprocess.PIPE, "stderr": subprocess.PIPE, "text": True, **how}
    done = subprocess.run([str(it) for it in words], **how)
    if done.returncode != 0:
        wrote = (done.stdout + (done.stderr or ""))[-4000:]
        raise Failed(f"{shlex.join(map(str, words))}\nended with status {done.returncode}:\n{wrote}")
    return done.stdout


def clang() -> str:
    return f"{proving.kit_folder()}/toolchain/bin/clang"


def kit_tool(name: str, *words: str | pathlib.Path) -> str:
    """A tool of LLVM, which the kit's clang is by another name."""
    return run([name, *words], executable=clang())


# The library as LLVM reads it.


def place_of(name: str) -> pathlib.Path:
    """Where a static library is kept: as the kit hands it to its clang, and as the kit builds it, `built.a`."""
    return ROOT / "out" / name


def built_module(title: str, name: str = "dali_c") -> pathlib.Path:
    """A static library as the kit hands it to its clang; proved and made if it is missing or older than its sources."""
    crate, kit, place = proving.workspace()[name], proving.kit(), place_of(name)
    kept = place / "kept"
    if not (kept.is_file() and kept.read_text() == f"{kit}\n" and is_newest(crate, kept)):
        if proving.build(title, [it.name for it in crate.below]) != 0:
            raise Failed(f"the crates below {name} are not proved")
        shutil.rmtree(place, ignore_errors=True)
        place.mkdir(parents=True)
        begun = time.time()
        make_module(title, crate)
        if crate.is_edited(begun):
            raise Failed(f"{name} was edited while it was proved: run this again")
        kept.write_text(f"{kit}\n")
    return place / "module.bc"


def is_newest(crate: proving.Crate, kept: pathlib.Path) -> bool:
    """Whether no source of the library or of the crates below it is newer."""
    sources = [file for it in [*crate.below, crate] for file in it.sources()]
    return all(file.stat().st_mtime <= kept.stat().st_mtime for file in sources)


def static_words(crate: proving.Crate) -> list[str]:
    return [*proving.read_words(crate), "--crate-type", "staticlib"]


def build_words(crate: proving.Crate) -> list[str | pathlib.Path]:
    """The call of the kit that builds a library which is proved."""
    place = place_of(crate.name)
    checked = ["--crate-checked", place / "checked", "--toolchain", toolchain(place)]
    return [f"{proving.kit_folder()}/bin/rattle", "build", *static_words(crate), *checked]


def make_module(title: str, crate: proving.Crate) -> None:
    """Proves a library, and has the kit build it."""
    place, jobs = place_of(crate.name), proving.proof_words(crate, min(proving.processors(), 4))
    standard.say(f"{title}: proving {crate.name}")
    run([f"{proving.kit_folder()}/bin/rattle", "check", *static_words(crate), *jobs, "-o", place / "checked"], cwd=crate.folder)
    run([*build_words(crate), "-o", place / "built.a"], cwd=crate.folder)


def stack_bound(title: str) -> str:
    """The bound of the stack that the kit's other back end tells of the library for C, if it does."""
    built_module(title)
    crate = proving.workspace()["dali_c"]
    words = [*build_words(crate), "-o", place_of(crate.name) / "other.a", "--backend", "rattle"]
    told = BOUND.search(run(words, cwd=crate.folder, stderr=subprocess.STDOUT))
    return f"at most {int(told[2]):,}, with frames of at most {int(told[1]):,}" if told else ""


def toolchain(place: pathlib.Path) -> pathlib.Path:
    """A folder as the kit's own, whose clang keeps the module that it is handed. Of a program that is to have its addresses checked
    that is all."""
    kit, folder = proving.kit_folder() / "toolchain", place / "toolchain"
    shutil.rmtree(folder, ignore_errors=True)
    (folder / "bin").mkdir(parents=True)
    (folder / "lib").symlink_to(kit / "lib")
    for file in (kit / "bin").iterdir():
        (folder / "bin" / file.name).symlink_to(file)
    wrapper = folder / "bin" / "clang"
    wrapper.unlink()
    kept = shlex.quote(str(place / "module.bc"))
    keep = f'for word; do case "$word" in *.bc) cp "$word" {kept} ;; -fsanitize=*) exit 1 ;; esac; done'
    wrapper.write_text(f'#!/bin/sh\n{keep}\nexec {shlex.quote(clang())} "$@"\n')
    wrapper.chmod(0o755)
    return folder


def as_text(words: collections.abc.Sequence[str | pathlib.Path], made: pathlib.Path) -> str:
    """What clang writes as LLVM's text."""
    run([clang(), *words, "-S", "-emit-llvm", "-o", made])
    return made.read_text()


def laid_out(text: str, line: str) -> str:
    """LLVM's text with another layout of data, in which all lies in memory as it did."""
    ours = re.search(r"^target datalayout = .*$", text, re.M)[0]
    wide, narrow = (layouts.layout(it.split('"')[1]) for it in (ours, line))
    try:
        if narrow.pointer < wide.pointer:
            text = layouts.widened(text, wide)
        layouts.judge(text, wide, narrow)
    except layouts.Refused as refused:
        raise Failed(f"the library cannot be laid out for another processor: {refused}") from None
    return text.replace(ours, line)


def retargeted(target: Target, module: pathlib.Path, folder: pathlib.Path) -> str:
    """LLVM's text of the library for another processor."""
    empty = folder / "empty.c"
    empty.write_text("")
    lines = as_text([f"--target={target.triple}", *target.words, empty], folder / "empty.ll")
    layout, triple = (re.search(rf"^target {it} = .*$", lines, re.M)[0] for it in ("datalayout", "triple"))
    text = as_text(["-x", "ir", module, "-O0", "-Xclang", "-disable-llvm-passes"], folder / "read.ll")
    text = laid_out(text, layout)
    triple += f"\n{EITHER_WAY}" * target.triple.startswith("thumb")
    text = re.sub(r"^target triple = .*$", triple, text, flags=re.M)
    text = re.sub(r' "(?:target-cpu|target-features|probe-stack|stack-probe-size)"="[^"]*"', "", text)
    # A C compiler takes it that the byte that is returned fills its register.
    text = re.sub(r"^define noundef (?=i8 @)", "define noundef zeroext ", text, flags=re.M)
    # What the sources mark for a site's loop makes these libraries larger: there clang decides by itself.
    return re.sub(r"^(attributes #.*) alwaysinline\b", r"\1", text, flags=re.M)


def layout_of(target: Target, folder: pathlib.Path) -> str:
    """The line of LLVM's text that says how data lie in memory on a processor."""
    (folder / "empty.c").write_text("")
    lines = as_text([f"--target={target.triple}", *target.words, folder / "empty.c"], folder / "empty.ll")
    return re.search(r"^target datalayout = .*$", lines, re.M)[0]


def portable(width: str, module: pathlib.Path, folder: pathlib.Path) -> str:
    """LLVM's text of the library for each little-endian processor whose pointers have so many bits: it names none, nor a file."""
    text = retargeted(TARGETS[PORTABLE[width]], module, folder)
    return re.sub(r"^(?:target |; ModuleID|source_filename).*\n", "", text, flags=re.M)


def of_portable(name: str, module: pathlib.Path, folder: pathlib.Path) -> pathlib.Path:
    """The library as an object for a processor that no archive is for."""
    width, target = OTHERS[name]
    text, source = portable(width, module, folder), folder / "portable.ll"
    ours, theirs = (layouts.layout(layout_of(it, folder).split('"')[1]) for it in (TARGETS[PORTABLE[width]], target))
    try:
        layouts.judge(text, ours, theirs)
    except layouts.Refused as refused:
        raise Failed(f"the library lies otherwise in memory on {name}: {refused}") from None
    source.write_text(text)
    return compiled(target, ["-Os", "-x", "ir", "-Wno-override-module"], source, folder / "library.o")


def compiled(
    target: Target, words: collections.abc.Sequence[str | pathlib.Path], source: pathlib.Path, made: pathlib.Path
) -> pathlib.Path:
    common = [clang(), f"--target={target.triple}", *target.words, "-ffunction-sections", "-fdata-sections"]
    run([*common, "-fstack-size-section", *words, "-c", source, "-o", made])
    return made


def library(target: Target, module: pathlib.Path, folder: pathlib.Path, level: str = "-Os") -> pathlib.Path:
    """The library as an object for another processor."""
    source = folder / "library.ll"
    source.write_text(retargeted(target, module, folder))
    return compiled(target, [level, "-x", "ir"], source, folder / "library.o")


def archive(target: Target, folder: pathlib.Path) -> pathlib.Path:
    """The library for a processor as an archive, the kit's own for that of the kit. The same sources give the same bytes."""
    module = built_module("targets")
    if target is KIT:
        return place_of("dali_c") / "built.a"
    made = folder / "libdali_c.a"
    kit_tool("llvm-ar", "rcsD", made, library(target, module, folder))
    return made


def program(
    target: Target,
    folder: pathlib.Path,
    sources: collections.abc.Sequence[pathlib.Path],
    linked: pathlib.Path,
    more: collections.abc.Sequence[str] = (),
) -> pathlib.Path:
    """A program in C with the library, without a C library."""
    words = ["-Os", "-std=c11", "-ffreestanding", "-fno-builtin", "-Wall", "-Wextra", "-Werror", *more]
    words += [word for it in (folder, BARE, INCLUDE, EXAMPLE, FIRMWARE) for word in ("-I", it)]
    objects = [compiled(target, words, it, folder / f"{it.stem}.o") for it in [*sources, *target.start]]
    made = folder / "program.elf"
    kit_tool("ld.lld", *target.link, "--gc-sections", *objects, linked, "-o", made)
    return made


def said(target: Target, made: pathlib.Path) -> list[list[str]]:
    """The lines that a program writes, as words."""
    try:
        wrote = run([*target.run, made], timeout=MOST_SECONDS)
    except subprocess.TimeoutExpired:
        raise Failed(f"the program has not ended after {MOST_SECONDS} seconds") from None
    return [line.split() for line in wrote.splitlines()]
