"""What tools/check/packages does with shells, with the built packages, and in a minimal Debian."""

import collections.abc
import os
import pathlib
import pty
import re
import select
import shutil
import subprocess
import tarfile
import tempfile
import time
import typing

from lib import ROOT, asking, packing

if typing.TYPE_CHECKING:
    from lib.harness import Checks

PATH = "/usr/sbin:/usr/bin:/sbin:/bin"
# For how many seconds a shell, or a command of a package, is waited for.
WAIT = 900
SUITE = "bookworm"
GEAR = 20
DRIVER = f"adapters/simulated bus.json --gear {GEAR}"
# A site for the check of each night, with the files of a user's room.
SITE = f"""name = "Site"
[[bus]]
name = "one"
records = "/room/site.db"
driver = "{DRIVER.replace('bus.json', '/room/bus.json')}"
"""

# Records that the program of 0.2.0 wrote, with the gear of their bus and its table.
KEPT = ROOT / "tools/lib/kept"
KEPT_TABLE = "0 0109B3\n1 3B0DAA\n2 3C1974\n3 4C71B0\n4 B59DC5\n"
# The last byte of the user version in a database, and how one is refused in which it was set.
USER_VERSION = 63
LATER = "later.db: a later version of Yolgibat wrote it, or another program, and it is left as it is\n"


def public(names: dict[str, object]) -> list[str]:
    """The names that a module makes, without those that it imports and its own."""
    return [it for it, what in names.items() if not it.startswith("_") and getattr(what, "__module__", None) in (None, "builtins")]


# Shells.


def typed(words: list[str], lines: list[bytes], wanted: bytes, env: dict[str, str]) -> bool:
    """Whether a program on a terminal shows something within a while, when these lines are typed, each once it is silent."""
    process, file = pty.fork()
    if not process:
        os.execvpe(words[0], words, env)
    shown, until, left = b"", time.monotonic() + WAIT / 10, list(lines)
    try:
        while wanted not in shown and time.monotonic() < until:
            if select.select([file], [], [], 0.4)[0]:
                shown += os.read(file, 4096)
            elif left:
                os.write(file, left.pop(0))
        return wanted in shown
    finally:
        os.close(file)
        os.waitpid(process, 0)


def completes(shell: str, package: pathlib.Path, call: str, wanted: str) -> bool:
    """Whether a shell that has loaded what it completes, of a package whose launchers it finds, ends the last word of a call as is wanted."""
    words, file = call.split(), package / f"completions/completion.{shell}"
    env = {"PATH": f"{package}:{PATH}", "HOME": str(package), "TERM": "dumb", "LANG": "C.UTF-8"}
    if shell == "zsh":
        (package / "zsh").mkdir(exist_ok=True)
        shutil.copy(file, package / "zsh/_yolgibat")
        begin = f"PS1=; fpath=({package}/zsh $fpath); autoload -Uz compinit; compinit -u -D; bindkey -e\n"
        whole = " ".join([*words[:-1], wanted])
        return typed(["zsh", "-f", "-i"], [begin.encode(), f"{call}\t".encode(), b"\x01echo LINE:\n"], f"LINE:{whole}".encode(), env)
    if shell == "bash":
        text = f". {file}; COMP_WORDS=({call}); COMP_CWORD={len(words) - 1}; _yolgibat; printf '%s\\n' \"${{COMPREPLY[@]}}\""
        given = ["bash", "--norc", "--noprofile", "-c", text]
    else:
        given = ["fish", "--no-config", "-c", f"source {file}; complete -C '{call}'"]
    done = subprocess.run(given, env=env, capture_output=True, text=True, timeout=WAIT)
    return wanted in [it.partition("\t")[0] for it in done.stdout.splitlines()]


# What was built.


class User:
    """Somebody in a room who calls the launchers of a package by name; inside of another root, if one is given."""

    def __init__(self, checks: "Checks", title: str, room: pathlib.Path, before: list[str], launchers: str, doc: str) -> None:
        self.checks, self.title, self.room, self.before, self.launchers, self.doc = checks, title, room, before, launchers, doc

    def call(self, words: tuple[str, ...]) -> list[str]:
        inside = 'cd "$0" && exec "$@"'
        return [*self.before, "env", "-i", f"PATH={PATH}", "LANG=C.UTF-8", f"HOME={self.room}", "sh", "-c", inside, str(self.room), *words]

    def ran(self, name: str, *words: str, given: str = "") -> tuple[str, str, int]:
        done = subprocess.run(self.call((f"{self.launchers}{name}", *words)), input=given, capture_output=True, text=True, timeout=WAIT)
        return done.stdout, done.stderr, done.returncode

    def same(self, found: object, wanted: object, what: str) -> None:
        self.checks.same(found, wanted, f"{self.title}: {what}")

    def commissions(self) -> None:
        """Gives simulated gear their addresses, and looks at the table and at a page."""
        driver = ["--driver", DRIVER, "--driver-timeout", "120"]
        run = self.ran("dali-commission", "run", "--records", "site.db", *driver, "0-63")
        table = self.ran("dali_commission", "table", "--records", "site.db")
        self.same((run[2], len(table[0].splitlines()), table[2]), (0, GEAR, 0), f"a run, and its table ({run[1][-300:]})")
        words = (f"{self.launchers}dali-commission", "page", "--records", "site.db", *driver)
        with asking.Page(subprocess.Popen(self.call(words), stdout=subprocess.PIPE, stderr=subprocess.DEVNULL, text=True)) as page:
            self.same((page.got("")[0], len(page.state()["places"])), (200, GEAR), "a page")
            self.same(page.done(command="check")["command"]["status"], 0, "a check on the page")
            page.process.terminate()
        self.same(self.ran("dali-commission", "run", "--records", "no/site.db", *driver, "0-63")[2], 5, "records that cannot be had")

    def put(self, name: str, content: bytes) -> None:
        subprocess.run(self.call(("sh", "-c", 'cat > "$0"', name)), input=content, check=True)

    def keeps(self) -> None:
        """Goes on with records of 0.2.0, and has those of a later version refused by name."""
        kept = (KEPT / "site-0.2.0.db").read_bytes()
        later = kept[:USER_VERSION] + b"\x01" + kept[USER_VERSION + 1 :]
        for name, content in (("kept.db", kept), ("kept.json", (KEPT / "bus-0.2.0.json").read_bytes()), ("later.db", later)):
            self.put(name, content)
        words = ("--records", "kept.db", "--driver", "adapters/simulated kept.json", "--driver-timeout", "120")
        for command in (("check", *words), ("run", *words, "0-63")):
            ran = self.ran("dali-commission", *command)
            self.same(ran[2], 0, f"{command[0]} over records of 0.2.0 ({ran[1][-300:]})")
        self.same(self.ran("dali-commission", "table", "--records", "kept.db")[::2], (KEPT_TABLE, 0), "the table of 0.2.0")
        ran = self.ran("dali-commission", "table", "--records", "later.db")
        self.same((ran[1].endswith(LATER), ran[2]), (True, 5), f"records of a later version ({ran[1][-300:]})")

    def plays(self, examples: list[pathlib.Path]) -> None:
        """Plays each example as the program of the clone does, draws one, and judges the capture."""
        for it in examples:
            program = ROOT / "crates/dali_play/out/dali_play"
            wanted = subprocess.run([program], stdin=it.open(), capture_output=True, text=True)
            found = self.ran("dali-sim", "replay", given=it.read_text())
            self.same((found[0], found[2]), (wanted.stdout, wanted.returncode), f"the report of {it.name}")
        drawn = self.ran("dali-view", given=(ROOT / "examples/two-controllers.txt").read_text())
        self.same(("<html" in drawn[0], drawn[2]), (True, 0), "a page of a run")
        judged = self.ran("dali-sim", "audit", f"{self.doc}/examples/capture.log")
        self.same((judged[0].startswith("played "), judged[2]), (True, 0), f"a capture is judged ({judged[1]})")


def examples() -> list[pathlib.Path]:
    return sorted((ROOT / "examples").glob("*.txt"))


def built(checks: "Checks") -> None:
    """Makes the packages, and uses each."""
    done = subprocess.run([ROOT / "tools/package", "--programs", "--check", "--without-record"], capture_output=True, text=True)
    checks.same(done.returncode, 0, f"tools/package --programs --check: {done.stdout}{done.stderr}")
    if done.returncode:
        return
    version = packing.versions()[0]
    with tempfile.TemporaryDirectory() as folder:
        pathlib.Path(folder).chmod(0o755)
        check_folder(checks, pathlib.Path(folder), ROOT / f"out/yolgibat-{version}-x86_64-linux.tar.gz")
    check_debian(checks, ROOT / f"out/yolgibat_{version}_amd64.deb")


def check_folder(checks: "Checks", folder: pathlib.Path, archive: pathlib.Path) -> None:
    """The folder runs where it is unpacked, also from elsewhere."""
    with tarfile.open(archive) as tar:
        tar.extractall(folder)
    place, room = folder / archive.name.removesuffix(".tar.gz"), folder / "room"
    room.mkdir()
    ran = subprocess.run(["sha256sum", "--check", "--quiet", "SHA256SUMS"], cwd=place, capture_output=True, text=True)
    checks.same((ran.returncode, ran.stdout), (0, ""), "the sums of the archive")
    user = User(checks, archive.name, room, [], f"{place}/", str(place))
    user.commissions()
    user.keeps()
    user.plays(examples())
    found = [it for it in place.rglob("*") if it.is_file() and not it.is_symlink() and "__pycache__" not in it.parts]
    left = [str(it) for it in found if str(it.relative_to(place)) not in sums(place)]
    checks.same(left, [], "files that are there beside those of the archive")


def sums(place: pathlib.Path) -> list[str]:
    return ["SHA256SUMS", *(line.split("  ", 1)[1] for line in (place / "SHA256SUMS").read_text().splitlines())]


# A minimal Debian.


def check_debian(checks: "Checks", package: pathlib.Path) -> None:
    """The package is clean, is installed in a minimal Debian, used there by a user, and removed."""
    if shutil.which("lintian"):
        done = subprocess.run(["lintian", "--allow-root", "--display-info", "--fail-on", "error,warning,info", package], capture_output=True, text=True)
        checks.same((done.returncode, done.stdout), (0, ""), "lintian")
    else:
        print("left out: lintian is not there")
    if os.geteuid() or not shutil.which("debootstrap"):
        print("left out: a minimal Debian, which needs root and debootstrap")
        return
    with tempfile.TemporaryDirectory() as folder:
        root = pathlib.Path(folder)
        root.chmod(0o755)
        words = ["debootstrap", "--variant=minbase", "--include=python3", SUITE, root]
        done = subprocess.run(words, capture_output=True, text=True, timeout=1800)
        if done.returncode:
            print(f"left out: debootstrap makes no Debian here: {done.stdout[-300:]}{done.stderr[-300:]}")
            return
        use_debian(checks, package, root)


def use_debian(checks: "Checks", package: pathlib.Path, root: pathlib.Path) -> None:
    shutil.copy(package, root / "package.deb")
    enabled, answers = root / "etc/systemd/system/timers.target.wants/yolgibat-check@one.timer", root / "var/lib/yolgibat/one"
    enabled.parent.mkdir(parents=True, exist_ok=True)
    before = listed(root)
    done = inside(root, "dpkg", "--install", "/package.deb")
    checks.same(done.returncode, 0, f"the package is installed: {done.stdout}{done.stderr}")
    (root / "room").mkdir(mode=0o777)
    (root / "room").chmod(0o777)
    for name in ("dev/null", "dev/urandom"):
        (root / name).exists() or subprocess.run(["cp", "-a", f"/{name}", root / name], check=True)
    user = User(checks, "Debian", pathlib.Path("/room"), ["chroot", "--userspec=65534:65534", str(root)], "", "/usr/share/doc/yolgibat")
    user.commissions()
    user.plays(examples()[:3])
    enabled.symlink_to("/usr/lib/systemd/system/yolgibat-check@.timer")
    answers.mkdir(parents=True)
    answers.chmod(0o777)
    (root / "etc/yolgibat/one.toml").write_text(SITE)
    user.same(user.ran("env", "STATE_DIRECTORY=/var/lib/yolgibat/one", "/usr/lib/yolgibat/nightly", "/etc/yolgibat/one.toml")[2], 0, "a check of a night")
    checks.same(len(list(answers.glob("check-*.json"))), 1, "the answers that are kept")
    for way in ("--remove", "--purge"):
        done = inside(root, "dpkg", way, "yolgibat")
        checks.same(done.returncode, 0, f"dpkg {way}: {done.stdout}{done.stderr}")
        checks.same((enabled.is_symlink(), answers.exists()), (False, way == "--remove"), f"the timer and its answers after {way}")
    left = sorted(it for it in listed(root) - before if not re.match(r"room(/|$)|var/(lib/dpkg|log|cache)/", it))
    checks.same(left, [], "what is left when the package is removed, but records")
    checks.say((root / "room/site.db").is_file(), "the records are there when the package is removed")


def inside(root: pathlib.Path, *words: str) -> subprocess.CompletedProcess[str]:
    env = {"PATH": PATH, "LANG": "C.UTF-8", "DEBIAN_FRONTEND": "noninteractive"}
    return subprocess.run(["chroot", root, *words], env=env, stdin=subprocess.DEVNULL, capture_output=True, text=True, timeout=WAIT)


def listed(root: pathlib.Path) -> set[str]:
    """All that is below a root, but what other processes have in it."""
    found: collections.abc.Iterator[tuple[str, list[str], list[str]]] = os.walk(root)
    them = {os.path.relpath(os.path.join(place, it), root) for place, folders, files in found for it in (*folders, *files)}
    return {it for it in them if not it.startswith(("proc/", "sys/", "dev/"))}
