"""What `tools/package --check` tries of the archive of the library for C.

Each link of a page there must lead to a file there. It builds examples/c with cc, by the flags that pkg-config tells, and by cmake, if these
are there, and examples/firmware for each Arm target with arm-none-eabi-gcc, or else with the kit's clang; if qemu-system-arm is there, that
runs too. It builds examples/interface for both boards. Nothing else than what was unpacked is read for it, but stdint.h and string.h for that
clang.
"""

import collections.abc
import io
import pathlib
import shutil
import subprocess
import tarfile
import tempfile

from lib import packing, spdx, targets

COMMISSION = ("main.c", "controller.c", "store.c", "gear.c", "stop.c")
# What examples/firmware begins with, and stands on, on a bare Arm processor.
BARE = ("support.h", "support.c", "aeabi.c", "memory.c", "program.ld")
ARM = {"thumbv6m": "cortex-m0", "thumbv7em": "cortex-m4"}
# examples/interface for the simulated board, as it is in the archive.
BUILT = "examples/interface/simulated.elf"


def built(place: pathlib.Path) -> collections.abc.Iterator[tuple[str, bool]]:
    """Whether the example is built of what was unpacked, by each way that is there, and commissions eight gear."""
    sources = [place / "examples/c" / it for it in COMMISSION]
    flags = ["-I", place / "include", "-L", place / "lib/x86_64-linux", "-ldali_c"]
    ways = {"cc": [["cc", *sources, *flags, "-o", place / "cc"]]}
    if shutil.which("pkg-config"):
        pc = targets.run(["pkg-config", "--cflags", "--libs", place / "lib/pkgconfig/dali_c.pc"]).split()
        ways["pkg-config"] = [["cc", *sources, *pc, "-o", place / "pkg-config"]]
    if shutil.which("cmake"):
        configure = ["cmake", "-S", place / "examples/c", "-B", place / "made", f"-Ddali_c_DIR={place / 'cmake'}"]
        ways["cmake"] = [configure, ["cmake", "--build", place / "made"], ["cp", place / "made/commission", place / "cmake-built"]]
    for way, commands in ways.items():
        for words in commands:
            targets.run(words)
        program = place / ("cmake-built" if way == "cmake" else way)
        said = targets.run([program, place / f"{way}-records", place / f"{way}-gear", "1"])
        yield way, said.startswith("all-found\n") and said.count("enrolled ") == 8


def linked(place: pathlib.Path, name: str, sources: list[str], folders: tuple[str, ...], link: str, made: pathlib.Path) -> None:
    """A program that is built of what was unpacked, for an Arm target."""
    target, library = targets.TARGETS[name], place / f"lib/{name}/libdali_c.a"
    words = ["-Os", "-std=c11", "-ffreestanding", "-fno-builtin", "-ffunction-sections", "-DCOMMISSIONINGS=1", "-DSEED=1"]
    words += [word for it in ("include", *folders) for word in ("-I", place / it)]
    sources, script = [place / it for it in sources], ["-T", place / link]
    if shutil.which("arm-none-eabi-gcc"):
        gcc = ["arm-none-eabi-gcc", f"-mcpu={ARM[name]}", "-mthumb", *words, *sources, library, "-nostdlib", *script]
        targets.run([*gcc, "-Wl,--entry=reset,--gc-sections", "-lgcc", "-o", made])
    else:
        objects = [place / f"{name}-{it.stem}.o" for it in sources]
        for source, made_of in zip(sources, objects):
            targets.run([targets.clang(), f"--target={target.triple}", *target.words, *words, "-I", targets.BARE, "-c", source, "-o", made_of])
        targets.kit_tool("ld.lld", *script, "-e", "reset", "--gc-sections", *objects, library, "-o", made)


def of_bare(*names: str) -> list[str]:
    return [f"examples/bare/{it}" for it in names]


def firmware(place: pathlib.Path) -> collections.abc.Iterator[tuple[str, bool]]:
    """Whether examples/firmware is built of what was unpacked, for each Arm target, and where it can be run, runs to its end."""
    sources = sorted(str(it.relative_to(place)) for it in (place / "examples/firmware").glob("*.c"))
    sources += [f"examples/c/{it}" for it in targets.AT_PINS] + of_bare(*(it for it in BARE if it.endswith(".c")))
    for name in ARM:
        target, made = targets.TARGETS[name], place / f"{name}.elf"
        linked(place, name, sources, ("examples/c", "examples/firmware", "examples/bare"), "examples/bare/program.ld", made)
        can_run = not targets.missing([target])
        yield f"{name}, and runs" if can_run else name, not can_run or ["writes"] in [line[:1] for line in targets.said(target, made)]


def interface(place: pathlib.Path) -> collections.abc.Iterator[tuple[str, bool]]:
    """Whether examples/interface is built of what was unpacked, for both boards; and the built one is right by its self-test, if it can be run."""
    folders = ("examples/c", "examples/interface", "examples/bare")
    ours, abi = [f"examples/interface/{it}.c" for it in ("interface", "text")], of_bare("aeabi.c", "memory.c")
    made = place / "stm32g0.elf"
    linked(place, "thumbv6m", [*ours, "examples/interface/board_stm32g0.c", "examples/c/pins.c", *abi], folders, "examples/interface/stm32g0.ld", made)
    yield "board_stm32g0.c", made.stat().st_size > 0
    at_pins = [f"examples/c/{it}" for it in targets.AT_PINS]
    sources = [*ours, "examples/interface/board_simulated.c", *at_pins, *abi, *of_bare("support.c")]
    linked(place, "thumbv6m", sources, folders, "examples/bare/program.ld", place / "simulated.elf")
    yield "board_simulated.c", True
    if not targets.missing([targets.TARGETS["thumbv6m"]]):
        words = ["qemu-system-arm", "-M", "mps2-an385", "-nographic", "-monitor", "none", "-serial", "pty", "-kernel"]
        with subprocess.Popen([*words, place / BUILT], stdin=subprocess.DEVNULL, stdout=subprocess.PIPE, text=True) as qemu:
            port = qemu.stdout.readline().split()[4]
            ran = subprocess.run([place / "adapters/serial", port, "--selftest"], capture_output=True, text=True)
            qemu.kill()
        yield "board_simulated.c, as it was packed, and is right by its self-test", ran.returncode == 0


def lost_links(place: pathlib.Path) -> list[str]:
    """The links of pages that lead out of what was unpacked, or to nothing."""
    found = [(page, it) for page in sorted(place.rglob("*.md")) for it in packing.links(page)]
    return [f"{page.relative_to(place)}: {it}" for page, it in found if not (it.is_relative_to(place.resolve()) and it.exists())]


def check(title: str, first: bytes) -> dict[str, bool]:
    """What is right of the library's archive, and what is not."""
    checks = {}
    with tempfile.TemporaryDirectory() as folder:
        with tarfile.open(fileobj=io.BytesIO(first)) as tar:
            tar.extractall(folder)
        place = pathlib.Path(folder) / title
        ran = subprocess.run(["sha256sum", "--check", "--quiet", "SHA256SUMS"], cwd=place)
        checks["each file has its sum"] = ran.returncode == 0
        bad = spdx.faults(lambda name: (place / name).read_bytes(), (place / spdx.NAME).read_bytes())
        checks[f"the list of parts has the sums of its files {' '.join(bad)}".strip()] = not bad
        lost = lost_links(place)
        checks[f"each link of {len(list(place.rglob('*.md')))} pages leads to a file in it {' '.join(lost)}".strip()] = not lost
        checks.update((f"the example is built of it by {way}, and commissions", is_so) for way, is_so in built(place))
        checks.update((f"the firmware is built of it for {name}", is_so) for name, is_so in firmware(place))
        checks.update((f"the interface is built of it for {name}", is_so) for name, is_so in interface(place))
    return checks
