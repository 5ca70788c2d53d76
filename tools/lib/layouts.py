"""How types lie in memory on two processors, and LLVM's text of a library made so that all lie on one as on the other.

Rattle lays out memory for a processor whose pointers have 64 bits: each field has an offset of its own, and a pointer eight bytes.
Where pointers have 32 bits, LLVM would read and write pointers, and structs with pointers, at other places than it copies them. So
`widened` has each pointer stored as a number of 64 bits, and `judge` refuses what would lie otherwise, and whatever it cannot tell of.
"""

import itertools
import re
import typing

INTEGERS = (1, 8, 16, 32, 64, 128)
# What touches no memory: it names types only of values.
OF_VALUES = set(
    "add and ashr br extractvalue freeze icmp insertvalue inttoptr lshr mul or phi ptrtoaddr ptrtoint ret select sext shl sub switch"
    " trunc udiv unreachable urem xor zext".split()
)
# The intrinsics that are known, those of memory with the type of their count.
OF_MEMORY = re.compile(r"@llvm\.mem(?:cpy|move)\.p0\.p0\.(i\d+)\(|@llvm\.memset\.p0\.(i\d+)\(")
INTRINSICS = re.compile(r"@llvm\.(?:trap|assume|cttz\.i\d+|ctlz\.i\d+|ctpop\.i\d+|bswap\.i\d+|[us](?:add|sub|mul)\.with\.overflow\.i\d+|[us](?:max|min)\.i\d+|fsh[lr]\.i\d+)\(")
# What has an argument or a result lie in memory, or hands over any number of them.
BY_MEMORY = re.compile(r"\b(?:byval|byref|sret|inalloca|preallocated|elementtype)\b|\.\.\.")
# A constant or variable whose fields lie without a gap: bytes, and pointers to others.
FIELD = r"ptr (?:null|@[\w.$]+|getelementptr \(i8, ptr @[\w.$]+, i64 \d+\))|\[\d+ x i8\] (?:c\"[^\"]*\"|zeroinitializer)"
PACKED = re.compile(rf"(@\S+ = [\w ]*(?:constant|global) )<\{{ ([^<>]*) \}}> <\{{ ((?:{FIELD})(?:, (?:{FIELD}))*) \}}>(, align \d+)")
BEHIND = "[4 x i8] zeroinitializer"
HEADS = re.compile(r"(?:source_filename|target (?:datalayout|triple)) = |attributes #\d+ = |!|;|\}$|$")


class Refused(Exception):
    """A line that would lie otherwise, or of which it cannot be told."""


class Layout(typing.NamedTuple):
    """The bytes of a pointer, and to how many bytes each type is aligned, by LLVM's name."""

    pointer: int
    aligned: dict[str, int]


def layout(words: str) -> Layout:
    """A layout of data as LLVM spells it."""
    parts = words.split("-")
    if parts[0] != "e":
        raise Refused(f"{words}: bytes do not go from the least to the highest")
    bits = {"p": (64, 64), "i1": (8, 8), "i8": (8, 8), "i16": (16, 16), "i32": (32, 32), "i64": (64, 32)}
    widest = None
    for part in parts[1:]:
        name, *numbers = part.split(":")
        if name == "p":
            bits["p"] = int(numbers[0]), int(numbers[1])
        elif name in bits:
            bits[name] = int(name[1:]), int(numbers[0])
        elif name == "i128":
            widest = 128, int(numbers[0])
    # A number wider than all that the layout names is aligned as the widest of these.
    bits["i128"] = widest or bits["i64"]
    return Layout(bits["p"][0] // 8, {name if name != "p" else "ptr": most // 8 for name, (_, most) in bits.items()})


class Type(typing.NamedTuple):
    """A type as it lies in memory: its bytes, to how many it is aligned, and its parts that are no structs, the offset and bytes of each."""

    size: int
    aligned: int
    leaves: list[tuple[int, int]]


def closing(text: str) -> int:
    """Behind which sign the brackets are closed that the text begins with."""
    depth = 0
    for at, sign in enumerate(text):
        depth += (sign in "{[(<") - (sign in "}])>")
        if depth == 0:
            return at + 1
    raise Refused(f"{text}: brackets that are not closed")


def type_at(text: str) -> str:
    """The type that a text begins with."""
    if word := re.match(r"i\d+\b|ptr\b", text):
        return word[0]
    if text[:1] in ("{", "["):
        return text[: closing(text)]
    raise Refused(f"{text}: no type that is known")


def fields(text: str) -> list[str]:
    """The types of a struct's fields."""
    found, left = [], text[1:-1].strip()
    while left:
        found.append(type_at(left))
        left = left[len(found[-1]) :].lstrip(", ")
    return found


def lying(text: str, of: Layout) -> Type:
    """How a type lies in memory."""
    if text == "ptr":
        return Type(of.pointer, of.aligned["ptr"], [(0, of.pointer)])
    if text[0] == "i":
        if int(text[1:]) not in INTEGERS:
            raise Refused(f"{text}: a number of so many bits")
        size = max(int(text[1:]), 8) // 8
        return Type(size, of.aligned[text], [(0, size)])
    if text[0] == "[":
        count, _, kind = text[1:-1].partition(" x ")
        one = lying(type_at(kind), of)
        return Type(int(count) * one.size, one.aligned, one.leaves)
    parts = parts_of(text, of)
    aligned = max((one.aligned for _, one in parts), default=1)
    end = max((offset + one.size for offset, one in parts), default=0)
    return Type(-(-end // aligned) * aligned, aligned, [(offset + more, size) for offset, one in parts for more, size in one.leaves])


def parts_of(text: str, of: Layout) -> list[tuple[int, Type]]:
    """Of a struct: the offset of each field, and how it lies."""
    found, end = [], 0
    for one in (lying(it, of) for it in fields(text)):
        offset = -(-end // one.aligned) * one.aligned
        found.append((offset, one))
        end = offset + one.size
    return found


# Pointers of eight bytes.


class Widening:
    """LLVM's text, line by line, with the names of the values that come in addition."""

    def __init__(self, wide: Layout) -> None:
        self.wide, self.numbers = wide, itertools.count()

    def name(self) -> str:
        return f"%wide.{next(self.numbers)}"

    def place(self, at: str, offset: int) -> tuple[list[str], str]:
        """The place so many bytes behind another."""
        if not offset:
            return [], at
        name = self.name()
        return [f"{name} = getelementptr i8, ptr {at}, i64 {offset}"], name

    def load(self, name: str, kind: str, at: str, aligned: int) -> list[str]:
        if kind == "ptr":
            number = self.name()
            return [f"{number} = load i64, ptr {at}, align {aligned}", f"{name} = inttoptr i64 {number} to ptr"]
        if kind[0] != "{":
            return [f"{name} = load {kind}, ptr {at}, align {aligned}"]
        lines, whole, kinds = [], "poison", fields(kind)
        for number, (of, (offset, _)) in enumerate(zip(kinds, parts_of(kind, self.wide))):
            before, place = self.place(at, offset)
            part, now = self.name(), name if number == len(kinds) - 1 else self.name()
            lines += [*before, *self.load(part, of, place, common(aligned, offset))]
            lines.append(f"{now} = insertvalue {kind} {whole}, {of} {part}, {number}")
            whole = now
        return lines

    def store(self, value: str, kind: str, at: str, aligned: int) -> list[str]:
        if kind == "ptr":
            number = self.name()
            return [f"{number} = ptrtoint ptr {value} to i64", f"store i64 {number}, ptr {at}, align {aligned}"]
        if kind[0] != "{":
            return [f"store {kind} {value}, ptr {at}, align {aligned}"]
        lines = []
        for number, (of, (offset, _)) in enumerate(zip(fields(kind), parts_of(kind, self.wide))):
            before, place = self.place(at, offset)
            part = self.name()
            lines += [*before, f"{part} = extractvalue {kind} {value}, {number}"]
            lines += self.store(part, of, place, common(aligned, offset))
        return lines

    def count(self, line: str) -> list[str]:
        """A call that copies or sets memory, which counts by 64 bits."""
        head, number, rest = re.fullmatch(r"(.*), i64 ([^,()]+), (i1 \w+\).*)", line).groups()
        narrow = re.sub(r"(@llvm\.mem\w+(?:\.p0)+)\.i64\(", r"\1.i32(", head)
        if number.isdigit():
            return [f"{narrow}, i32 {number}, {rest}"]
        name = self.name()
        return [f"{name} = trunc i64 {number} to i32", f"{narrow}, i32 {name}, {rest}"]

    def line(self, line: str) -> list[str]:
        """What stands for a line of a function."""
        if made := re.fullmatch(r"(\S+) = alloca (.*), align (\d+)", line):
            kind = made[2]
            return [f"{made[1]} = alloca [{lying(kind, self.wide).size} x i8], align {made[3]}"] if has_pointer(kind) else [line]
        if read := re.fullmatch(r"(\S+) = load (.*), ptr (\S+), align (\d+)(?:, !.*)?", line):
            return self.load(read[1], read[2], read[3], int(read[4])) if has_pointer(read[2]) else [line]
        if line.startswith("store ") and has_pointer(kind := type_at(line[6:])):
            value, at, aligned = re.fullmatch(r"(.*), ptr (\S+), align (\d+)", line[7 + len(kind) :]).groups()
            return self.store(value, kind, at, int(aligned))
        if made := re.fullmatch(r"(\S+ = )ptrtoaddr ptr (.*)", line):
            return [f"{made[1]}ptrtoint ptr {made[2]}"]
        if (of := OF_MEMORY.search(line)) and "i64" in of.groups():
            return self.count(line)
        return [line]


def has_pointer(kind: str) -> bool:
    return "ptr" in kind


def common(aligned: int, offset: int) -> int:
    """To how many bytes a place is aligned that is so far behind one that is aligned."""
    return min(aligned, offset & -offset) if offset else aligned


def packed_fields(held: re.Match[str]) -> list[tuple[str, str]]:
    """The fields of a constant without gaps: the type of each, and the whole of it."""
    found = [(type_at(it), it) for it in re.findall(FIELD, held[3])]
    if [kind for kind, _ in found] != fields(f"{{{held[2]}}}"):
        raise Refused(f"{held[1]}: its type is that of another constant")
    return found


def widened_held(held: re.Match[str]) -> str:
    """A constant without gaps, in which four bytes stand behind each pointer."""
    made = [one for kind, it in packed_fields(held) for one in [it, *[BEHIND] * (kind == "ptr")]]
    return f"{held[1]}<{{ {', '.join(map(type_at, made))} }}> <{{ {', '.join(made)} }}>{held[4]}"


def widened(text: str, wide: Layout) -> str:
    """LLVM's text of a library for a processor with pointers of 32 bits, where each pointer takes eight bytes in memory."""
    lines, widening = [], Widening(wide)
    for line in text.splitlines():
        if held := PACKED.fullmatch(line):
            line = widened_held(held)
        if line.startswith("declare ") and OF_MEMORY.search(line):
            line = re.sub(r"(\.p0)\.i64\((.*), i64, i1", r"\1.i32(\2, i32, i1", line)
        lines += [f"  {it}" for it in widening.line(line.strip())] if line.startswith("  ") else [line]
    return "\n".join(lines) + "\n"


# Whether all lies as it should.


def judge_type(kind: str, wide: Layout, narrow: Layout) -> None:
    if lying(kind, wide) != lying(kind, narrow):
        raise Refused(f"{kind} lies otherwise in memory")


def judge_call(line: str, narrow: Layout) -> None:
    if BY_MEMORY.search(re.sub(r'"[^"]*"', "", line)):
        raise Refused("an argument that lies in memory, or any number of arguments")
    if of := OF_MEMORY.search(line):
        if (of[1] or of[2]) != f"i{8 * narrow.pointer}":
            raise Refused("it counts bytes otherwise than the processor")
    elif "@llvm." in line and not INTRINSICS.search(line):
        raise Refused("an intrinsic that is not known")
    elif not re.search(r"@(?:[\w.$]+|\"[^\"]*\")\(", line):
        raise Refused("a call whose function is not named")


def judge_line(line: str, wide: Layout, narrow: Layout) -> None:
    """A line of a function."""
    plain = re.sub(r'"[^"]*"', "", line)
    what = re.sub(r"^%\S* = ", "", plain).split()[0]
    if re.search(r"\b(?:getelementptr|ptrtoint|ptrtoaddr|inttoptr|bitcast|add|sub|xor|trunc)(?: \w+)* \(", plain):
        raise Refused("a constant that is computed")
    if what in ("call", "tail"):
        return judge_call(line, narrow)
    if re.fullmatch(r'\S+:(?: +;.*)?|i\d+ -?\w+, label \S+|\]', plain) or what in OF_VALUES:
        return None
    form = {
        "load": r"%\S* = load (.+), ptr \S+, align \d+(?:, ![\w.]+ !\d+)*", "store": r"store (.+), ptr \S+, align \d+",
        "alloca": r"%\S* = alloca (.+), align \d+", "getelementptr": r"%\S* = getelementptr (?:(?:inbounds|nuw|nusw) )*(.+?), ptr .+",
    }
    found = re.fullmatch(form[what], plain) if what in form else None
    if not found:
        raise Refused("what it does with memory is not known")
    kind = type_at(found[1])
    if what != "store" and kind != found[1]:
        raise Refused(f"{found[1]}: no type that is known")
    return judge_type(kind, wide, narrow)


def judge_packed(held: re.Match[str], wide: Layout, narrow: Layout) -> None:
    """A constant without gaps."""
    them = packed_fields(held)
    behind = [it for _, it in them[1:]] + [""]
    if wide.pointer != narrow.pointer and any(kind == "ptr" and after != BEHIND for (kind, _), after in zip(them, behind)):
        raise Refused("a constant with a pointer")


def judge_head(line: str, wide: Layout, narrow: Layout) -> None:
    """A line outside of the functions, or the first one of a function."""
    if line.startswith(("define ", "declare ")):
        if BY_MEMORY.search(re.sub(r'"[^"]*"', "", line)):
            raise Refused("an argument that lies in memory, or any number of arguments")
        if (of := OF_MEMORY.search(line)) and (of[1] or of[2]) != f"i{8 * narrow.pointer}":
            raise Refused("it counts bytes otherwise than the processor")
    elif held := PACKED.fullmatch(line):
        judge_packed(held, wide, narrow)
    elif line.startswith("@"):
        held = re.search(r" (?:constant|global) (.*)", line)
        if not held:
            raise Refused("no constant and no variable")
        judge_type(type_at(held[1]), wide, narrow)
        if wide.pointer != narrow.pointer and re.search(r"\bptr\b", re.sub(r'"[^"]*"', "", held[1])):
            raise Refused("a constant with a pointer")
    elif not HEADS.match(line):
        raise Refused("what it is, is not known")


def judge(text: str, wide: Layout, narrow: Layout) -> None:
    """Refuses LLVM's text for a processor where what goes through memory would not lie as on the other."""
    is_within = False
    for number, line in enumerate(text.splitlines(), 1):
        try:
            if is_within and line.strip() and line != "}":
                judge_line(line.strip(), wide, narrow)
            elif not is_within:
                judge_head(line, wide, narrow)
        except Refused as refused:
            raise Refused(f"line {number}, {line.strip()}: {refused}") from None
        is_within = line.startswith("define ") or (is_within and line != "}")
