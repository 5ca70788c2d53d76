"""What the checks of tools/check/drive are made of: programs and drivers that stand for real ones, and a clone with no kit."""

import collections.abc
import json
import os
import pathlib
import shlex
import shutil
import signal
import subprocess
import sys
import typing

from lib import ROOT

JOIN = """
import json, sys, time
from yolgibat import joining
sys.exit(joining.join(*json.loads(sys.argv[1])))
"""
# The same, slow to start the two, so that a signal comes before.
JOIN_LATE = JOIN.replace("from yolgibat import joining\n", """
from yolgibat import joining
starts = joining.started
def late(*words):
    print("starting", file=sys.stderr, flush=True)
    time.sleep(1)
    return starts(*words)
joining.started = late
""")
# The same, slow to pass an answer on, so that the driver writes more before the next frame.
JOIN_SLOW = JOIN.replace("from yolgibat import joining\n", """
from yolgibat import joining, relay
passes = relay.Relay.answer
def slow(self, line):
    passes(self, line)
    time.sleep(0.5)
relay.Relay.answer = slow
""")
# A program that waits for a signal, and a driver that waits for the end of its input.
WAITS = """
import signal, sys, time
for number in (1, 2, 15):
    signal.signal(number, lambda number, _: sys.exit(40 + number))
print("ready", file=sys.stderr, flush=True)
while True:
    time.sleep(0.05)
"""
LISTENS = """
import signal, sys
for number in (1, 2, 15):
    signal.signal(number, lambda number, _: print("the driver got", number, file=sys.stderr, flush=True))
sys.stdin.read()
print("the driver saw the end", file=sys.stderr, flush=True)
"""
# A program that counts who has an end of its two pipes: itself, the one that started it, and its driver.
COUNTS = """
import os, sys
def ends(process):
    folder = f"/proc/{process}/fd"
    return [os.readlink(f"{folder}/{it}") for it in os.listdir(folder) if os.path.exists(f"{folder}/{it}")]
mine = [os.readlink(f"/proc/self/fd/{it}") for it in (0, 1)]
print("put 1", flush=True)
sys.stdin.readline()
driver = int(open(PLACE).read())
print("ends:", [sum(it in mine for it in ends(process)) for process in (os.getpid(), os.getppid(), driver)], file=sys.stderr)
"""
EXCHANGES = """
import os, sys
for at in range(5000):
    os.write(1, b"put %d\\n" % at)
    if sys.stdin.readline() != f"byte {at % 256:02X}\\n":
        sys.exit(1)
sys.exit(9)
"""
ANSWERS = """
import sys
for line in sys.stdin:
    print(f"byte {int(line.split()[1]) % 256:02X}", flush=True)
"""
# A program that shows a luminaire: bright, dark, and bright again, also where its input ends. It says what it was told.
SHOWS = """
import os, sys, time
def put(level):
    os.write(1, f"put 2 0A{level} tell\\n".encode())
def show():
    print("showing", file=sys.stderr, flush=True)
    for _ in range(1000):
        for level in ("FE", "00"):
            put(level)
            if not sys.stdin.readline():
                return
            time.sleep(STAYS)
show()
put("FE")
sys.exit(4)
"""
# A driver that takes its time, and says what it has done in the end.
LIGHTS = """
import sys, time
done = []
for line in sys.stdin:
    time.sleep(TAKES)
    print("silence", flush=True)
    done.append(line.split()[2])
    if line.split()[2] in STALLS and len(done) > 1:
        time.sleep(1000)
print("done:", done[-1], file=sys.stderr, flush=True)
"""
KIT = {
    "rt": """#!/bin/sh
cat KIT
""",
    "rattle": """#!/bin/sh
echo "the kit's word on standard output"
for made; do :; done
[ "$3" != "$REFUSED" ] || exit 1
cat "$PROGRAM" > "$made"
""",
    "rattle-link": """#!/bin/sh
while [ "$1" != -o ]; do shift; done
cp "$3" "$2" && chmod +x "$2"
""",
}
PROGRAM = """#!/bin/sh
case $* in *--help | *--version) exit 0 ;; esac
echo "words: $*" >&2
[ "$1" != hang-up ] || kill -HUP $$
echo 'put 3 A900 ask'
read -r told
echo "told: $told" >&2
echo a result
exit 3
"""
DRIVER = """#!/bin/sh
echo "driver: $*" >&2
read -r line
echo "line: $line" >&2
echo lapsed
"""


def sh(text: str) -> list[str]:
    return ["/bin/sh", "-c", text]


def python(text: str, **values: object) -> list[str]:
    """A process that runs this text, with values for names in it."""
    for name, value in values.items():
        text = text.replace(name, repr(value))
    return [sys.executable, "-S", "-E", "-c", text]


def writes(text: bytes, then: str = "") -> list[str]:
    """A driver that writes this after it has read a line, and goes on until its input ends."""
    return python(f"import os, sys; sys.stdin.readline(); os.write(1, {text!r}); {then or 'sys.stdin.read()'}")


def ignoring(name: str, words: list[str]) -> list[str]:
    """The words of a process that ignores a signal."""
    return sh(f"trap '' {name}; exec {shlex.join(words)}")


def joined(
    program: list[str], driver: list[str], *more: float | bool, join: str = JOIN, ignored: str | None = None, **how: typing.Any
) -> subprocess.Popen[str]:
    """A program and a driver that are being joined, in a session of their own."""
    pipes = {"stdin": subprocess.DEVNULL, "stdout": subprocess.PIPE, "stderr": subprocess.PIPE, "text": True}
    words = [*python(join), json.dumps([program, driver, *more])]
    words = ignoring(ignored, words) if ignored else words
    return subprocess.Popen(words, cwd=ROOT, start_new_session=True, **{**pipes, **how})


def ended(ran: subprocess.Popen[str]) -> tuple[str | None, str, int | None]:
    """What it wrote, what it said, and its status. What does not end is killed, with what it started."""
    try:
        wrote, said = ran.communicate(timeout=30)
        return wrote, said, ran.returncode
    except subprocess.TimeoutExpired:
        children = pathlib.Path(f"/proc/{ran.pid}/task/{ran.pid}/children").read_text().split()
        for process in (ran.pid, *map(int, children)):
            os.kill(process, signal.SIGKILL)
        return "", "it does not end", None


class Clone:
    """A clone with one program, a driver and the stub of a kit, in a folder of its own."""

    def __init__(self, room: pathlib.Path) -> None:
        self.root, self.work = room / "clone", room / "work"
        for name in ("tools", "yolgibat"):
            shutil.copytree(ROOT / name, self.root / name, ignore=shutil.ignore_patterns("__pycache__"))
        for name in ("KIT", "HANDLES", "dali_commission"):
            shutil.copy(ROOT / name, self.root)
        self.put(self.root / "crates.txt", "dali_commission:\n")
        (self.root / "extra").mkdir()
        self.put(self.root / "extra/programs.txt", "")
        self.source = self.put(self.root / "crates/dali_commission/src/main.rt", "// nothing\n")
        for name in ("", "-run", "-check", "-identify", "-table", "-replace", "-mend", "-clear", "-page", "-building", "-launcher", "-version"):
            self.put(self.root / f"yolgibat/help/dali_commission{name}.txt", f"help{name}\n")
        self.put(self.root / "adapters/one", DRIVER)
        self.put(self.work / "near/two", DRIVER)
        for name, text in KIT.items():
            self.put(room / "bin" / name, text)
        path = f"{room / 'bin'}:{os.environ['PATH']}"
        self.env = dict(os.environ, LC_ALL="C.UTF-8", PATH=path, PROGRAM=str(self.put(room / "program", PROGRAM)))

    def put(self, file: pathlib.Path, text: str) -> pathlib.Path:
        file.parent.mkdir(parents=True, exist_ok=True)
        file.write_text(text)
        file.chmod(0o755)
        return file

    def run(self, *words: str, given: str = "", **env: str) -> tuple[str, str, int]:
        return self.ran([self.root / "dali_commission", *words], input=given, env={**self.env, **env})

    def ran(self, words: collections.abc.Iterable[str | pathlib.Path], **how: typing.Any) -> tuple[str, str, int]:
        how = {"input": "", "env": self.env, "capture_output": True, "text": True, "timeout": 60, **how}
        done = subprocess.run(list(map(str, words)), cwd=self.work, **how)
        return done.stdout, done.stderr, done.returncode
