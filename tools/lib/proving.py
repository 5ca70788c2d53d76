"""Proves and builds programs of crates/ and extra/, each with the crates below it, side by side on all processors.

Each crate is proved by `rattle build`, as `rt ci` calls it: the crates above a library read what it states, and not its proofs.
What is proved stays in out/ of each crate, so a build that is interrupted goes on where it was. What the prover says of a crate
stands in its out/build.log.
"""

import contextlib
import fcntl
import io
import os
import pathlib
import re
import shlex
import shutil
import signal
import subprocess
import sys
import threading
import time
from collections.abc import Callable, Iterator

from lib import ROOT
from yolgibat import standard

CRATES = ROOT / "crates"
# What the gate proves, and the programs beside it. Each has a list of its crates.
WORKSPACES = ((ROOT / "crates.txt", CRATES), (ROOT / "extra/programs.txt", ROOT / "extra"))
PARTS = ("src", "specs", "proofs")
# What one check takes at most, in bytes of memory.
MEMORY = 2_500_000_000
# The seconds of processor that each crate takes with one job, as the file says it came by them: tools/build --measure writes them.
SECONDS = ROOT / "tools/lib/proof-seconds.txt"
# How long a job must have to do in seconds of processor, so that it is worth its reading.
WORTH = 12
# By the clock, how much faster so many jobs are than one: a guess, between the two crates that were tried with three.
FASTER = {1: 1, 2: 1.4, 3: 1.7}
# What a crate is taken to need that was never measured, and how many must be done before the time that is left is guessed.
UNMEASURED, FEWEST = 100, 3
REFUSED, MISSING, INTERRUPTED = 126, 127, 130
# The signals that end a build.
ENDS = (signal.SIGINT, signal.SIGTERM, signal.SIGHUP)
# After how many seconds it is said again what goes on.
SIGN = 10


class Refused(Exception):
    """A crate that is not proved."""


class Changed(Exception):
    """A crate that was edited while it was proved, or one above it."""


class Interrupted(Exception):
    """A signal that ends the build."""


class Crate:
    """A crate: its line in its list, its folder, the crates that it names and all below it, the libraries of the kit that it
    names, the files of other crates that it has among its sources, whether it is a program or a static library, how it is
    compiled, and how many seconds of processor its proof takes, if that was measured."""

    def __init__(
        self, name: str, line: str, folder: pathlib.Path, direct: list["Crate"], of_kit: list[str],
        borrowed: list[pathlib.Path], seconds: int,
    ) -> None:
        self.name, self.line, self.folder, self.borrowed, self.seconds = name, line, folder, borrowed, seconds
        self.direct, self.of_kit = direct, of_kit
        self.below = list(dict.fromkeys(it for crate in direct for it in [*crate.below, crate]))
        self.is_program = (self.folder / "src/main.rt").is_file()
        self.is_static = " staticlib" in line.partition(":")[0]
        self.made = self.folder / "out" / (name if self.is_program else f"stated/{name}.rlib/format")
        head = line.partition(":")[0]
        self.backend = ["--backend", "rattle" if " backend=rattle" in head else "llvm"]
        self.backend += ["--opt-level", *level] if (level := re.findall(r" opt_level=(\d)", head)) else []
        self.log = self.folder / "out/build.log"

    def sources(self) -> list[pathlib.Path]:
        own = [file for part in PARTS for file in (self.folder / part).rglob("*") if file.is_file()]
        return own + self.borrowed

    def is_edited(self, since: float) -> bool:
        """Whether one of its sources is newer than this moment."""
        return any(file.stat().st_mtime > since for file in self.sources())

    def is_newest(self) -> bool:
        """Whether it is built, and no source of it or of the crates below it is newer."""
        if not self.made.is_file():
            return False
        lists = [file for file, folder in WORKSPACES if folder == self.folder.parent]
        sources = [*lists, *(file for crate in [*self.below, self] for file in crate.sources())]
        made = self.made.stat().st_mtime
        return all(file.stat().st_mtime <= made for file in sources)


def workspace() -> dict[str, Crate]:
    """The crates by name, those of crates/ before those of extra/, and in each folder the lowest first."""
    found, seconds = {}, measured()
    for file, folder in WORKSPACES:
        for line in file.read_text().splitlines():
            line, _, borrowed = line.partition("#")[0].partition(" + ")
            head, _, below = line.partition(":")
            if head.strip():
                name, direct = head.split()[0], [found[it] for it in below.split() if it in found]
                of_kit = [it for it in below.split() if it not in found]
                borrows = [ROOT / it for it in borrowed.split()]
                found[name] = Crate(name, line, folder / name, direct, of_kit, borrows, seconds.get(name, UNMEASURED))
    return found


def measured() -> dict[str, int]:
    """The seconds of the crates that were measured."""
    lines = SECONDS.read_text().splitlines() if SECONDS.is_file() else []
    return {name: int(seconds) for name, seconds in (line.split() for line in lines if not line.startswith("#"))}


def note(seconds: dict[str, int]) -> None:
    """Writes down the seconds of crates that were measured, beside those of the others."""
    head = "# The seconds of processor that each crate took with one job when it was last measured, by tools/build --measure.\n"
    SECONDS.write_text(head + "".join(f"{name} {count}\n" for name, count in sorted({**measured(), **seconds}.items())))


def built(name: str) -> pathlib.Path:
    """The program of this name, proved and built where it is missing or older than its sources."""
    if subprocess.run([ROOT / "tools/build", name], stdout=subprocess.DEVNULL).returncode != 0:
        sys.exit(f"{name} is not built")
    return workspace()[name].made


def free_memory() -> int:
    """The free memory of the machine in bytes."""
    return int(re.search(r"MemAvailable:\s+(\d+)", pathlib.Path("/proc/meminfo").read_text())[1]) * 1024


def processors() -> int:
    """How many processors there are to use, and fewer where memory is short."""
    return max(min(len(os.sched_getaffinity(0)), free_memory() // MEMORY), 1)


@contextlib.contextmanager
def signs_of_life(text: Callable[[], str]) -> Iterator[None]:
    """Says this every ten seconds meanwhile, with how long it has been so."""
    begun, ended = time.monotonic(), threading.Event()

    def tell():
        while not ended.wait(SIGN):
            standard.say(f"{text()}, {minutes(time.monotonic() - begun)} so far")

    telling = threading.Thread(target=tell, daemon=True)
    telling.start()
    try:
        yield
    finally:
        ended.set()
        telling.join()


def minutes(seconds: float) -> str:
    return f"{int(seconds) // 60}:{int(seconds) % 60:02}"


def room(name: str = "proving") -> pathlib.Path:
    """The folder in which crates are proved.

    It is none of the checkout, where rt would take its crates for some of the repository's.
    """
    return ROOT / (f".git/{name}" if (ROOT / ".git").is_dir() else f".{name}")


class Build:
    """A build of crates that are not proved yet, lowest first."""

    def __init__(self, title: str, crates: list[Crate], is_measured: bool = False) -> None:
        self.title, self.crates, self.left, self.is_measured = title, crates, list(crates), is_measured
        self.running, self.waiting, self.ended, self.read, self.took = {}, {}, {}, {}, {}
        self.processors, self.changed, self.first = processors(), threading.Condition(), time.monotonic()

    def behind(self, crate: Crate) -> int:
        """The seconds of the longest chain of crates that begins with this one."""
        return crate.seconds + max((self.behind(it) for it in self.crates if crate in it.below), default=0)

    def ready(self) -> list[Crate]:
        """The crates whose libraries are proved, those with the longest chain behind them first."""
        waits = [*self.left, *self.running]
        found = [it for it in self.left if not any(below in waits for below in it.below)]
        return sorted(found, key=lambda it: -self.behind(it))

    def run(self) -> None:
        """Proves all, as many at once as there are processors."""
        while self.left or self.running:
            for crate in self.ready()[: self.processors - len(self.running)]:
                self.start(crate)
            with self.changed:
                self.changed.wait_for(lambda: self.ended, timeout=1)
                ended, self.ended = self.ended, {}
            for crate, (status, seconds) in ended.items():
                self.took[crate] = seconds
                self.end(crate, status)

    def start(self, crate: Crate) -> None:
        is_longest = self.behind(crate) >= max(map(self.behind, [*self.left, *self.running]))
        self.left.remove(crate)
        place, self.read[crate] = room() / crate.name, time.time()
        lay_out(crate, place)
        (crate.folder / "out").mkdir(exist_ok=True)
        words = self.words_of(crate, is_longest)
        with crate.log.open("wb") as log, uninterrupted():
            how = {"stdin": subprocess.DEVNULL, "stdout": log, "stderr": log, "start_new_session": True}
            ran = subprocess.Popen(words, cwd=place, **how)
            self.running[crate] = ran
            self.waiting[crate] = threading.Thread(target=self.wait_for, args=(crate, ran), daemon=True)
            self.waiting[crate].start()

    def words_of(self, crate: Crate, is_longest: bool) -> list[str]:
        """What proves a crate. All make way for the one with the longest chain behind it, which they wait for in the end."""
        first = [] if is_longest else ["nice"]
        return [*first, "sh", "-c", " && ".join(map(shlex.join, commands(crate, self.jobs(crate, is_longest))))]

    def jobs(self, crate: Crate, is_longest: bool) -> int:
        """How many jobs prove a crate.

        Each loads the libraries for itself and what the others proved, which costs processor time, and saves time by the clock. So
        the crate with the longest chain behind it has as many as are worth it: all else waits for it in the end. Each other crate
        has one, and where crates are measured, all have.
        """
        wanted = min(crate.seconds // WORTH, max(FASTER)) if is_longest and not self.is_measured else 1
        return max(min(self.processors, wanted, free_memory() // MEMORY), 1)

    def wait_for(self, crate: Crate, ran: subprocess.Popen[bytes]) -> None:
        _, status, used = os.wait4(ran.pid, 0)
        with self.changed:
            self.ended[crate] = status, used.ru_utime + used.ru_stime
            self.changed.notify_all()

    def end(self, crate: Crate, status: int) -> None:
        del self.running[crate]
        if status or not (room() / crate.name / crate.made.relative_to(crate.folder)).is_file():
            raise Refused(crate.name)
        for it in [*crate.below, crate]:
            if it.is_edited(self.read[crate] if it is crate else it.made.stat().st_mtime):
                raise Changed(it.name)
        keep(crate, self.read[crate])
        count = len(self.crates) - len(self.left) - len(self.running)
        so_far = f"{count} of {len(self.crates)} crates proved after {minutes(time.monotonic() - self.first)} ({crate.name})"
        standard.say(f"{self.title}: {so_far}{self.guess()}")

    def guess(self) -> str:
        """What is left, by what all took that was done so far, beside their seconds. The first crates say too little for a guess."""
        waits = [*self.left, *self.running]
        done = [it for it in self.crates if it not in waits]
        if not waits or len(done) < FEWEST:
            return ""
        pace = (time.monotonic() - self.first) / self.clock(done)
        minutes = round(pace * self.clock(waits) / 60)
        return f", some {minutes} minutes left" if minutes > 1 else ", a minute or two left"

    def clock(self, crates: list[Crate]) -> float:
        """The least time by the clock in which these crates can be proved, by their seconds."""

        def chain(crate):
            below = max((chain(it) for it in crate.direct if it in crates), default=0)
            return below + crate.seconds / FASTER[self.jobs(crate, True)]

        return max(*map(chain, crates), sum(it.seconds for it in crates) / self.processors)

    def stop(self) -> None:
        """Ends what runs, and waits until each has ended: its own thread sees that."""
        for crate, ran in self.running.items():
            with contextlib.suppress(ProcessLookupError):
                os.killpg(ran.pid, signal.SIGKILL)
            self.waiting[crate].join()

    def now(self) -> str:
        """What is proved at this moment."""
        return f"{self.title}: proving {', '.join(it.name for it in list(self.running))}"


def read_words(crate: Crate) -> list[str]:
    """The words that tell the kit what a crate is read from, as it stands in its folder."""
    kit = kit_folder()
    named = {it: f"{kit}/rlibs/{it}.rlib" for it in ("std", *crate.of_kit)}
    named |= {it.name: it.made.parent for it in crate.direct}
    folders = [f"{kit}/rlibs", *(it.made.parent.parent for it in crate.below)]
    words = ["--crate-name", crate.name, f"src/{'main' if crate.is_program else 'lib'}.rt"]
    words += [word for name, file in named.items() for word in ("--extern", f"{name}={file}")]
    words += [word for folder in folders for word in ("-L", f"dependency={folder}")]
    return [*words, "--antt-project", f"{kit}/rattle/logic/antt-project.json"]


def proof_words(crate: Crate, jobs: int) -> list[str]:
    """The words that tell the kit how a crate is proved."""
    return ["--logic-built", f"{kit_folder()}/logic_built", "--links", f"{crate.name}=", "--jobs", str(jobs)]


def commands(crate: Crate, jobs: int) -> list[list[str]]:
    """The calls of the kit that prove a crate in its place, and make its library or its program."""
    kit, out = kit_folder(), f"out/{crate.name}"
    words = [f"{kit}/bin/rattle", "build", *read_words(crate), *proof_words(crate, jobs)]
    if not crate.is_program:
        return [[*words, "--statements", "-o", str(crate.made.parent.relative_to(crate.folder))]]
    link = [f"{kit}/bin/rattle-link", "--target", "x86_64-unknown-linux-gnu", "--toolchain", f"{kit}/toolchain", "-o", out]
    return [
        [*words, "--toolchain", f"{kit}/toolchain", *crate.backend, "-o", f"{out}.o"],
        [*link, f"{out}.o", f"{kit}/c/libos_c.a", f"{kit}/c/liblibc_c.a"],
    ]


def lay_out(crate: Crate, place: pathlib.Path) -> None:
    """Makes a copy of the crate's sources, by links: what is built there is taken over when it is whole."""
    shutil.rmtree(place, ignore_errors=True)
    place.mkdir(parents=True)
    for part in PARTS:
        if (crate.folder / part).is_dir():
            shutil.copytree(crate.folder / part, place / part, copy_function=os.link)
    for file in crate.borrowed:
        os.link(file, place / "src" / file.name)
    (place / "out/stated").mkdir(parents=True)


def keep(crate: Crate, read: float) -> None:
    """Takes what was built in the crate's place into the checkout."""
    place = room() / crate.name
    made = crate.made if crate.is_program else crate.made.parent
    take(crate, place / made.relative_to(crate.folder), read)
    shutil.rmtree(place, ignore_errors=True)


def take(crate: Crate, built: pathlib.Path, read: float) -> None:
    """Takes a program or a library into the checkout. It is as old as the reading of its sources: what was edited since is newer."""
    made = crate.made if crate.is_program else crate.made.parent
    if made.is_dir():
        shutil.rmtree(made)
    made.parent.mkdir(parents=True, exist_ok=True)
    os.replace(built, made)
    os.utime(crate.made, (read, read))


def wanted(programs: list[str]) -> list[Crate]:
    """The crates that these programs are made of and that are not built yet, lowest first.

    A program that is newer than all its sources needs no library, whoever built it.
    """
    crates = workspace()
    tops = [crates[it] for it in programs if not crates[it].is_newest()]
    found = []
    for crate in crates.values():
        needed = any(crate is top or crate in top.below for top in tops)
        if needed and not (crate.is_newest() and not any(it in found for it in crate.below)):
            found.append(crate)
    return found


def kit_folder() -> pathlib.Path:
    """The folder of the kit, whose bin/ has the command rt."""
    return pathlib.Path(shutil.which("rt")).resolve().parent.parent


def kit() -> str | None:
    """The name of the kit that is there, or None. Says so where there is none, or another than the repository was proved with."""
    named = (ROOT / "KIT").read_text().strip()
    if not shutil.which("rt"):
        standard.say(f"the Rattle kit is missing: README.md says what is needed; the repository was last proved with {named}")
        return None
    found = subprocess.run(["rt", "version"], capture_output=True, text=True, stdin=subprocess.DEVNULL).stdout.strip()
    if found != named:
        standard.say(f"note: this is {found}; the repository was last proved with {named}")
    return found


def forget_others(kit_name: str) -> None:
    """Forgets the libraries that another kit proved, which this one cannot read."""
    last = pathlib.Path(f"{room()}.kit")
    if last.is_file() and last.read_text() != kit_name:
        for crate in workspace().values():
            shutil.rmtree(crate.folder / "out/stated", ignore_errors=True)
    last.write_text(kit_name)


def prove(title: str, programs: list[str], is_measured: bool) -> int:
    """Proves and builds programs, and returns an exit status. What its crates took is written down where they are measured."""
    if not wanted(programs):
        return 0
    found = kit()
    if found is None:
        return MISSING
    forget_others(found)
    crates = wanted(programs)
    run = Build(title, crates, is_measured)
    about = max(round(run.clock(crates) / 60), 1)
    begun = f"proving {len(crates)} crates on {run.processors} processors, which takes {about} to {3 * about} minutes"
    standard.say(f"{title}: {begun}; the prover's words go to crates/NAME/out/build.log")
    try:
        with signs_of_life(run.now):
            run.run()
        if is_measured:
            note({crate.name: round(took) for crate, took in run.took.items()})
        return 0
    except Refused as refused:
        log = workspace()[str(refused)].log
        standard.say(f"{title}: {refused} is refused; the end of {log}:")
        standard.say("\n".join(log.read_text(errors="replace").splitlines()[-20:]))
        return REFUSED
    except Changed as changed:
        standard.say(f"{title}: {changed} was edited while it was proved, or one above it: run this again")
        return REFUSED
    finally:
        run.stop()
        shutil.rmtree(room(), ignore_errors=True)


def build(title: str, programs: list[str], is_measured: bool = False) -> int:
    """Proves and builds programs while no other build of this checkout runs, and returns an exit status. Where nothing is to be built, it
    waits for nobody."""

    if not wanted(programs):
        return 0
    before = {it: signal.getsignal(it) for it in ENDS}
    end_by_signals()
    try:
        with open(f"{room()}.lock", "w") as lock:
            wait_for_others(title, lock)
            return prove(title, programs, is_measured)
    except Interrupted:
        standard.say(f"{title}: interrupted; what is proved is kept, and the next run goes on there")
        return INTERRUPTED
    except OSError as error:
        standard.say(f"{title}: nothing can be built in {ROOT}: {error.strerror}")
        return MISSING
    finally:
        for number, how in before.items():
            signal.signal(number, how)


def end_by_signals() -> None:
    """From now on the first of these signals is an `Interrupted`, and those after it are nothing."""

    def interrupt(*_):
        for it in ENDS:
            signal.signal(it, signal.SIG_IGN)
        raise Interrupted

    for it in ENDS:
        signal.signal(it, interrupt)


@contextlib.contextmanager
def uninterrupted() -> Iterator[None]:
    """A signal that comes meanwhile ends the build afterwards: `stop` has to know each process that was started."""
    before, came = {it: signal.getsignal(it) for it in ENDS}, []
    for it in ENDS:
        signal.signal(it, lambda number, _: came.append(number))
    try:
        yield
    finally:
        for it, how in before.items():
            signal.signal(it, how)
    for number in came[:1]:
        signal.raise_signal(number)


def wait_for_others(title: str, lock: io.TextIOWrapper) -> None:
    try:
        fcntl.flock(lock, fcntl.LOCK_EX | fcntl.LOCK_NB)
    except BlockingIOError:
        standard.say(f"{title}: waiting for another build of this checkout")
        fcntl.flock(lock, fcntl.LOCK_EX)
