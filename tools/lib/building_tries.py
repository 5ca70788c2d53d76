"""A building for tools/check/building, and what that script tries by hand: many simulated buses, faults, drivers far away, and the page."""

import argparse
import collections.abc
import contextlib
import json
import os
import pathlib
import random
import re
import signal
import subprocess
import sys
import tempfile
import time
import typing

from lib import ROOT, asking, browser, commission_faults, ssh_server
from lib.harness import Checks
from yolgibat import building, marks, places

STUB = ROOT / "tools/lib/commission_stub.py"
# How the script is called: without what a site adds to Python, which it does not need.
COMMAND = (sys.executable, "-S", ROOT / "yolgibat/__main__.py", "dali_commission", "building")
# A driver that answers each frame, of this name.
DRIVER = "sh -c 'while read -r line; do echo silence; done' {}"
NAMES = ["school.ground.1", "school.ground.2", "school.first.1", "gym"]
# How many seconds is waited for anything, also on a machine that has much other work.
WAIT = 600


def gear_of(at: int) -> list[str]:
    return [f"{at:02X}000{it}" for it in range(1, 5)]


class Room:
    """A folder with a building, whose buses have a folder each."""

    def __init__(
        self, folder: pathlib.Path, names: list[str] = NAMES, program: str | None = None, seconds: int = 60, **drivers: str
    ) -> None:
        self.folder, self.file, self.program = folder, folder / "building.toml", program or folder / "program"
        folder.mkdir(exist_ok=True)
        if not program:
            _, _, text = STUB.read_text().partition("\n")
            self.program.write_text(f"#!{sys.executable} -SE\n{text}")
            self.program.chmod(0o755)
        lines = ['name = "School"', "[defaults]", f"driver-timeout = {seconds}"]
        for at, name in enumerate(names):
            (folder / name).mkdir()
            self.write_gear(name, gear_of(at))
            driver = drivers.get(name.replace(".", "_"), DRIVER.format(name))
            lines += ["[[bus]]", f'name = "{name}"', f'driver = "{driver}"', f'records = "{name}/site.db"']
        self.file.write_text("\n".join(lines))
        self.env = {name: text for name, text in os.environ.items() if name != "BUS"}

    def write_gear(self, name: str, them: list[str]) -> None:
        (self.folder / name / "bus.json").write_text(json.dumps(them))

    def hold(self, *names: str) -> collections.abc.Callable[[], object]:
        """Commands of these buses do not end, until what is given back is called."""
        files = [self.folder / name / "hold" for name in names]
        for it in files:
            it.touch()
        return lambda: [it.unlink() for it in files]

    def begun(self, task: str, *words: object, **how: typing.Any) -> subprocess.Popen[str]:
        call = [*COMMAND, task, "--building", self.file, "--program", self.program, *words]
        pipes = {"stdin": subprocess.DEVNULL, "stdout": subprocess.PIPE, "stderr": subprocess.PIPE}
        return subprocess.Popen(list(map(str, call)), env=self.env, text=True, **pipes | how)

    def ran(self, task: str, *words: object) -> tuple[str, str, int]:
        process = self.begun(task, *words)
        wrote, said = process.communicate(timeout=WAIT)
        return wrote, said, process.returncode

    def object(self, task: str, *words: object) -> tuple[dict[str, typing.Any], dict[str, int], int]:
        wrote, _, status = self.ran(task, "--json", *words)
        found = json.loads(wrote)
        return found, {it["bus"]: it["status"] for it in found["buses"]}, status

    def gear(self, name: str) -> list[tuple[int | None, str]]:
        """The short and the random address of each simulated gear of a bus."""
        rows = json.loads((self.folder / name / "gear.json").read_text())["gear"]
        return [(it["short_address"], it["random_address"]) for it in rows]

    def is_busy(self, name: str) -> bool:
        """Whether a command works on this bus. It is only looked at: a lock of this process would keep a command away, and others by a fork."""
        lock = self.folder / name / "bus.json.lock"
        return lock.exists() and f":{lock.stat().st_ino} 0 EOF" in pathlib.Path("/proc/locks").read_text()


def waited(is_so: collections.abc.Callable[[], bool]) -> bool:
    until = time.monotonic() + WAIT
    while not is_so() and time.monotonic() < until:
        time.sleep(0.02)
    return is_so()


def check_tables(checks: Checks, room: Room) -> None:
    """On each bus all simulated gear have short addresses, no two one, and the table is what the bus has."""
    table: dict[str, list[tuple[int, str]]] = {}
    for it in room.object("table")[0]["table"]:
        table.setdefault(it["bus"], []).append((it["address"], it["random"]))
    for entry in building.read(room.file).entries:
        gear = room.gear(entry.name)
        shorts = {short for short, _ in gear if short is not None}
        checks.same(len(shorts), len(gear), f"{entry.name}: all gear have short addresses, no two one")
        checks.same(sorted(table.get(entry.name, [])), sorted(gear, key=lambda it: (it[0] is None, it)), f"{entry.name}: the table is what the bus has")


# Types what is searched on the page of a building, and says how many milliseconds each letter took.
SEARCHED = "floor 7 room 12"
SEARCH = """((it, text) => [...text].map((_, at) => {
    const begun = performance.now();
    it.value = text.slice(0, at + 1);
    it.dispatchEvent(new Event('input'));
    return document.body.offsetHeight && performance.now() - begun;
}))(document.querySelector('#search'), '%s')"""
# How many seconds the page has to open, and how many milliseconds for each letter, on a machine that is quiet.
OPENS, ANSWERS = 2, 100
# The delays of lines, in milliseconds each way.
DELAYS = (0, 1, 20, 100, 500)
TAKEN, SIZE = "docs/pictures/building.png", (1000, 820)
# How often a bus that did not end is called again; how a run that served all gear ends, an address that noise was heard at is left alone;
# within how many frames of a bus it is killed.
CALLS, ENDED, FRAMES = 4, (0, 13), 3000
# The processes of a building, by what their command lines have.
DRIVERS = "the drivers"
KINDS = {"what joins each program and its driver": b"import apart", DRIVERS: b"adapters/simulated", "the command": b"yolgibat"}


class Many(Room):
    """A building of simulated buses, whose gear have troubles, and what its processes take."""

    def __init__(self, folder: pathlib.Path, count: int, slow: float, program: str) -> None:
        chance = random.Random(1)
        self.counts = {f"floor{at // 10}.{at % 10}": chance.randint(1, 64) for at in range(count)}
        trouble = f"--slow {slow} " + " ".join(f"--{it} 0.01" for it in ("lose", "damage", "destroy", "lapse"))
        driver = f"{ROOT}/adapters/simulated {{}}/gear.json --gear {{}} {trouble}"
        drivers = {it.replace(".", "_"): driver.format(it, self.counts[it]) for it in self.counts}
        super().__init__(folder, list(self.counts), program, **drivers)
        # How many kB all processes had at most, by what they are, and how many seconds of a processor each took in this run, by its number.
        self.most, self.used, self.slow, self.chance = {}, {}, slow, random.Random()

    def processes(self, top: int) -> dict[int, bytes]:
        """The processes below one, each with its command line."""
        parents = {}
        for it in pathlib.Path("/proc").glob("[0-9]*"):
            with contextlib.suppress(OSError):
                parents[int(it.name)] = int((it / "stat").read_text().rpartition(")")[2].split()[1])
        below, more = [], [top]
        while more:
            below += more
            more = [it for it in parents if parents[it] in more]
        found = {}
        for it in below:
            with contextlib.suppress(OSError):
                found[it] = pathlib.Path(f"/proc/{it}/cmdline").read_bytes()
        return found

    def weigh(self, top: int) -> None:
        """Keeps how many kB all processes had at most, by what they are, and what each took."""
        sums = {}
        for it, words in self.processes(top).items():
            kind = next((kind for kind, mark in KINDS.items() if mark in words), "the programs")
            with contextlib.suppress(OSError, TypeError):
                size = re.search(r"^Pss:\s+(\d+)", pathlib.Path(f"/proc/{it}/smaps_rollup").read_text(), re.M)
                sums[kind] = sums.get(kind, 0) + int(size[1])
                times = pathlib.Path(f"/proc/{it}/stat").read_text().rpartition(")")[2].split()[11:13]
                self.used[it] = sum(map(int, times)) / os.sysconf("SC_CLK_TCK")
        # What is told of each bus is a file in memory.
        for it in pathlib.Path(f"/proc/{top}/fd").iterdir():
            with contextlib.suppress(OSError):
                if os.readlink(it).startswith("/memfd:story"):
                    sums["the stories"] = sums.get("the stories", 0) + it.stat().st_blocks // 2
        for kind, size in sums.items():
            self.most[kind] = max(self.most.get(kind, 0), size)

    def run(self, names: collections.abc.Sequence[str] = (), kills: collections.abc.Iterable[float] = (), is_whole: bool = False) -> None:
        """Runs these buses, or all. At each of these moments, in seconds, a program is killed, or with it all that goes on."""
        begun, kills = time.monotonic(), sorted(kills)
        self.used = {}
        with open(self.folder / "wrote", "w") as wrote, open(self.folder / "said", "a") as said:
            process, looks = self.begun("run", "--json", *names, stdout=wrote, stderr=said), 0
            while process.poll() is None:
                time.sleep(0.5)
                # To weigh many processes costs a second.
                looks += 1
                if looks % 20 == 10:
                    self.weigh(process.pid)
                while kills and time.monotonic() - begun > kills[0]:
                    kills.pop(0)
                    self.kill(process.pid, is_whole)
        seconds, used = time.monotonic() - begun, sum(self.used.values())
        print(f"{len(names or self.counts)} buses: status {process.returncode} after {seconds:.0f} s, {used:.0f} s of processor; "
              f"{self.longest() if process.returncode >= 0 else 'killed'}; load {os.getloadavg()[0]:.0f}", flush=True)

    def kill(self, top: int, is_whole: bool) -> None:
        them = self.processes(top)
        programs = [it for it in them if them[it].startswith(str(self.program).encode())]
        for it in them if is_whole else self.chance.sample(programs, min(1, len(programs))):
            with contextlib.suppress(ProcessLookupError):
                os.kill(it, signal.SIGKILL)

    def longest(self) -> str:
        """How long the slowest bus of the run before takes by itself."""
        frames = max(sum(report.get("frames", 0) for report in it["reports"]) for it in self.ended().values())
        return f"one had {frames} frames, of {self.slow} s each: {frames * self.slow:.0f} s"

    def ended(self) -> dict[str, dict[str, typing.Any]]:
        """What came of each bus of the run before."""
        return {it["bus"]: it for it in json.loads((self.folder / "wrote").read_text())["buses"]}


def try_many(chosen: argparse.Namespace, program: str) -> int:
    """All buses of a building, killed twice."""
    checks = Checks()
    with tempfile.TemporaryDirectory() as folder:
        room = Many(pathlib.Path(folder, "many"), chosen.buses, chosen.slow, program)
        moments = lambda count: [room.chance.uniform(0, max(2.0, FRAMES * chosen.slow)) for _ in range(count)]
        room.run(kills=moments(1), is_whole=True)
        room.run(kills=moments(max(1, chosen.buses // 10)))
        room.run()
        found = room.ended()
        for _ in range(CALLS):
            left = [name for name in found if found[name]["status"] not in ENDED]
            for name in left:
                print(f"{name}: status {found[name]['status']}: {found[name]['said']}", flush=True)
            if left:
                room.run(left)
                found |= room.ended()
        for name in room.counts:
            checks.say(found[name]["status"] in ENDED, f"{name} ended: {found[name]['said']}")
        check_tables(checks, room)
        open_ends = sum(it["status"] != 0 for it in found.values())
        sizes = ", ".join(f"{kind} {size / 1000:.0f} MB" for kind, size in sorted(room.most.items()))
        own = sum(size for kind, size in room.most.items() if kind != DRIVERS) / 1000
        print(f"{open_ends} of them left an address alone; memory at most {own:.0f} MB without the drivers: {sizes}")
    return checks.end()


def try_delays(chosen: argparse.Namespace, program: str) -> int:
    """Buses whose drivers are far away, by how late their lines come: all gear get addresses, and how long that takes."""
    checks = Checks()
    with tempfile.TemporaryDirectory() as folder:
        names = [f"delay.{it}" for it in DELAYS]
        driver = f"{ROOT}/adapters/tests/delayed {{}} {ROOT}/adapters/simulated {{}}/gear.json --timed --gear {chosen.gear} --slow {chosen.slow}"
        drivers = {it.replace(".", "_"): driver.format(it.partition(".")[2], it) for it in names}
        room = Room(pathlib.Path(folder, "far"), names, program, **drivers)
        os.chdir(room.folder)
        jobs = [building.Job(it, "run", program) for it in building.read(room.file).entries]
        building.work(jobs, len(jobs), [])
        for job in jobs:
            command, report = job.bus.command, job.reports[0]
            checks.same(job.status(), 0, f"{job.entry.name} ended: {job.said}")
            print(f"{job.entry.name} ms, {chosen.gear} gear: {report.get('frames')} frames, {command.ended - command.begun:.0f} s", flush=True)
        check_tables(checks, room)
    return checks.end()


def try_ssh(chosen: argparse.Namespace, program: str) -> int:
    """Drivers behind ssh: a building at once, connections that drop, and a network that is gone for some time."""
    checks, names = Checks(), [f"far.{it}" for it in range(chosen.buses or 5)]
    with tempfile.TemporaryDirectory() as folder, ssh_server.served(pathlib.Path(folder, "ssh")) as host:
        far = pathlib.Path(folder, "far")
        driver = f"{host.words} {ROOT}/adapters/simulated {far}/{{}}/gear.json --timed --slow {chosen.slow or 0.005}"
        room = Room(far, names, program, 20, **{it.replace(".", "_"): driver.format(it) for it in names})

        def cut(number: int) -> dict[str, dict[str, typing.Any]]:
            run = room.begun("run", "--json")
            checks.say(waited(lambda: len(host.sessions()) >= 2 * len(names)), "all are connected")
            time.sleep(2)
            host.signal(number)
            return {it["bus"]: it for it in json.loads(run.communicate(timeout=WAIT)[0])["buses"]}

        for number, text in ((signal.SIGKILL, "the driver ended with status 255 before it answered"), (signal.SIGSTOP, "the driver did not answer frame")):
            ended = cut(number)
            checks.same({it["status"] for it in ended.values()}, {4}, "a connection that is gone ends each bus")
            checks.same([it["said"] for it in ended.values() if text not in (it["said"] or "")], [], f"and it is said: {text}")
        ended = room.object("run")[0]["buses"]
        checks.same({it["status"] for it in ended}, {4}, "as long as the other side knows nothing of it, it has the interface")
        print(ended[0]["said"], flush=True)
        host.signal(signal.SIGKILL)
        begun = time.monotonic()
        checks.same(room.object("run")[1], dict.fromkeys(names, 0), "the next run goes on, and ends well")
        print(f"{len(names)} buses of 5 gear over ssh: {time.monotonic() - begun:.0f} s", flush=True)
        check_tables(checks, room)
    return checks.end()


def try_faults(chosen: argparse.Namespace, program: str) -> int:
    """A disk that is full for one bus, a driver that hangs, and a connection that drops: the others end well, also if they are called twice at once,
    and so do these when all is mended."""
    checks, names = Checks(), ["full", "hung", "dropped", "well.1", "well.2"]
    with tempfile.TemporaryDirectory() as folder:
        simulated = f"{ROOT}/adapters/simulated {{0}}/gear.json --gear 20 --slow {chosen.slow or 0.005}"
        hung, dropped = f"sh -c 'sed -u 100q | {simulated}; sleep 60'", f"{ROOT}/adapters/tests/delayed 0 --drop 101 {simulated}"
        drivers = {it: {"hung": hung, "dropped": dropped}.get(it, simulated).format(it) for it in names}
        room = Room(pathlib.Path(folder, "ill"), names, program, 20, **{it.replace(".", "_"): text for it, text in drivers.items()})
        with commission_faults.small_disk(room.folder / "disk", "80k") as is_there:
            room.file.write_text(room.file.read_text().replace("full/site.db", "disk/site.db"))
            first = room.begun("run", "--json")
            checks.say(waited(lambda: all((room.folder / it / "site.db").exists() for it in ("well.1", "well.2"))), "two buses are at work")
            checks.same(room.object("run", "well")[1], {"well.1": 5, "well.2": 5}, "a second call leaves them as they are")
            found = json.loads(first.communicate(timeout=WAIT)[0])["buses"]
            statuses, said = ({it["bus"]: it[key] for it in found} for key in ("status", "said"))
            checks.same(statuses, {"full": 5 if is_there else 0, "hung": 4, "dropped": 4, "well.1": 0, "well.2": 0}, "who ends well")
            for name, text in (
                ("full", "its disk is full"), ("hung", "did not answer frame 101"), ("dropped", "ended with status 255 before it answered frame 101")
            ):
                checks.say(not statuses[name] or text in said[name], f"what is said of {name}: {said[name]}")
            print("\n".join(f"{name}: {text}" for name, text in said.items() if text), flush=True)
            text = room.file.read_text()
            for name in ("hung", "dropped"):
                text = text.replace(drivers[name], simulated.format(name))
            room.file.write_text(text)
            if is_there:
                subprocess.run(["mount", "-o", "remount,size=4m", room.folder / "disk"], check=True)
            checks.same(room.object("run")[1], dict.fromkeys(names, 0), "all end well when all is mended")
            check_tables(checks, room)
    return checks.end()


def try_page(program: str, is_taken: bool) -> int:
    """The page of 200 buses with 64 luminaires each, in a browser, on a phone and on a desk."""
    checks, names = Checks(), [f"tower.{at // 8 + 1}.{at % 8 + 1}" for at in range(200)]
    with tempfile.TemporaryDirectory() as folder:
        room = Room(pathlib.Path(folder, "tower"), names)
        for at, name in enumerate(names):
            records, file = {str(it): f"{at:02X}{1009 * it:04X}" for it in range(64)}, room.folder / name / "site.db"
            file.write_text(json.dumps(records))
            hang = {records[it]: f"Floor {at // 8 + 1}, room {8 * (at % 8) + int(it) // 8 + 1}, desk {int(it) % 8 + 1}" for it in records}
            places.file_of(file).write_text(json.dumps(hang | {records["63"]: "<i>Attic</i>"}))
            missing = {(7, records["7"])} if at % 90 == 49 else set()
            marks.keep(marks.file_of(file), marks.Marks(missing=missing, checked=None if at % 8 == 7 else time.time()))
        with asking.Page(room.begun("page", stderr=subprocess.DEVNULL)) as page, browser.Browser(program, f"{folder}/profile") as opened:
            for width, height in ((390, 844), (1400, 1000)):
                search_in(checks, opened.page("about:blank", width, height), page.address, width, len(names))
            if is_taken:
                tab = opened.page(page.address, *SIZE)
                tab.wait("state !== null && luminaires.length > 0")
                tab.value(SEARCH % SEARCHED)
                tab.shot(str(ROOT / TAKEN))
            checks.same(opened.said, [], "the page says nothing in its console")
    return checks.end()


def search_in(checks: Checks, tab: browser.Tab, address: str, width: int, buses: int) -> None:
    """Opens the page of so many buses, and searches."""
    begun = time.monotonic()
    tab.ask("Page.navigate", url=address)
    tab.wait(f"state !== null && luminaires.length === {64 * buses}")
    seconds = time.monotonic() - begun
    took = tab.value(SEARCH % SEARCHED)
    rows, found = tab.value("[[...document.querySelectorAll('#rows tr')].map(it => it.innerText), matches(wanted()).length]")
    checks.say((len(rows), found) == (8, 8) and all("Floor 7, room 12, desk" in it for it in rows), f"luminaires are found by their places: {found}, {rows[:3]}")
    buttons = "['run', 'check'].map(it => document.getElementById(it).textContent)"
    tab.click("#check")
    once = tab.value(f"[{buttons}, state.buses.filter(it => it.is === 'busy').length]")
    checks.same(once, [["Run (buses: 1)", "Check (buses: 1): press once more"], 0], "what works on what is found asks once more, with the count")
    for text, count in ((":7", buses), ("room 1", 8 * buses // 8), ("desk 3 :2", buses), ("tower 7", 0 if buses < 7 else 512), (":64", 0)):
        tab.value(SEARCH % text)
        checks.same(tab.value("matches(wanted()).length"), count, f"what is found for {text!r}")
    checks.same(tab.value(buttons)[1].count("once more"), 0, "and no more if something else is searched for")
    tab.value(SEARCH % "attic")
    checks.same(tab.value("[...document.querySelectorAll('#rows i')].length"), 0, "a place is text and nothing else")
    wide = tab.value("document.documentElement.scrollWidth")
    checks.say(wide <= width, f"the page is no wider than {width} pixels: {wide}")
    checks.say(seconds <= OPENS and max(took) <= ANSWERS, f"{width} pixels: open after {seconds:.1f} s, a letter takes {max(took):.0f} ms at most")
    print(f"{width} pixels: open after {seconds:.1f} s, a letter takes {max(took):.0f} ms at most; load {os.getloadavg()[0]:.0f}", flush=True)
    tab.close()
