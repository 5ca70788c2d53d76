"""What stands in a program for a bare Arm processor that has the library for C: see tools/measure/firmware."""

import pathlib
import re

from lib import targets


def declared() -> tuple[list[str], list[str]]:
    """The structs of the header, and its calls that work on one."""
    text = re.sub(r"/\*.*?\*/", "", (targets.INCLUDE / "dali_c.h").read_text(), flags=re.S)
    calls = re.findall(r"^\w+ (dali_\w+)\((?!void\))", text, re.M)
    return re.findall(r"^struct (\w+) \{", text, re.M), calls


def program(target: targets.Target, folder: pathlib.Path, linked: pathlib.Path, settings: dict[str, int | str]) -> pathlib.Path:
    """The program that measures, with the library."""
    (folder / "structs.h").write_text("".join(f"STRUCT({it})\n" for it in declared()[0]))
    words = [f"-D{name}={value}" for name, value in settings.items()]
    sources = [targets.BARE / "program.c", targets.EXAMPLE / "gear.c"]
    return targets.program(target, folder, sources, linked, words)


# What stands in the program.

FUNCTION = re.compile(r"^([0-9a-f]+) <(.*)>:$")
# A branch to an address, or to one in a register. Of a branch that may be narrow or wide, a processor that has both tells which it is.
BRANCHES = "b bl blx bx beq bne bhs blo bmi bpl bvs bvc bhi bls bge blt bgt ble".replace(" ", "|")
BRANCH = re.compile(rf"^\s*[0-9a-f]+:\s+({BRANCHES})(?:\.[nw])?\s+(?:0x([0-9a-f]+) <|(r\d+)\b)")


class Function:
    """A function of the program: the frame that it takes, those that it calls and those that it goes on in, by address,
    and whether it goes where a register says."""

    def __init__(self, name: str, frame: int | None) -> None:
        self.name, self.frame = name, frame
        self.calls, self.goes_on, self.is_open = set(), set(), False


def frames(made: pathlib.Path) -> dict[str, int]:
    """The bytes that each function takes of the stack, by each of its names."""
    told = targets.kit_tool("llvm-readobj", "--stack-sizes", made)
    entries = re.findall(r"Functions: \[(.*)\]\s+Size: 0x([0-9A-F]+)", told)
    return {name: int(size, 16) for names, size in entries for name in names.split(", ")}


def functions(made: pathlib.Path) -> dict[int, Function]:
    """The functions of the program by their addresses. A function branches within itself by `bl`, too."""
    sizes, found, now = frames(made), {}, None
    for line in targets.kit_tool("llvm-objdump", "-d", "--no-show-raw-insn", made).splitlines():
        head, branch = FUNCTION.match(line), BRANCH.match(line)
        if head:
            now = found[int(head[1], 16)] = Function(head[2], sizes.get(head[2]))
        elif branch and branch[2]:
            (now.calls if branch[1] == "bl" else now.goes_on).add(int(branch[2], 16))
        elif branch:
            now.is_open = True
    for function in found.values():
        function.calls &= found.keys()
        function.goes_on &= found.keys()
    return found


def bound(found: dict[int, Function], at: int, above: tuple[int, ...] = ()) -> int:
    """The most bytes of stack that a function takes with all that it calls. It calls nothing that a register names, and
    itself nowhere."""
    function = found[at]
    if function.is_open or function.frame is None or at in above:
        raise targets.Failed(f"the stack of {function.name} has no bound")
    below = {it: bound(found, it, (*above, at)) for it in (function.calls | function.goes_on) - {at}}
    called = [function.frame + below[it] for it in function.calls - {at}]
    return max([function.frame, *called, *(below[it] for it in function.goes_on - {at})])
