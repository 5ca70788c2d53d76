"""What tools/check/places tries of the files beside the records: the marks, and what others do to the records while a page is served; and of
what a command tells at its end."""

import json
import os
import pathlib
import shlex
import signal
import subprocess

from lib.harness import Checks
from lib.page_stubs import DRIVER, GEAR, PROGRAM, WAIT, Page, Room
from yolgibat import apart, marks


def check_beside(checks: Checks, folder: pathlib.Path) -> None:
    """What others do to the records while a page is served: it shows what is there then."""
    room = Room(folder)
    with Page(room) as page:
        page.done(command="run")
        (room.folder / "odd").write_text("[9]")
        state = page.done(command="check")
        checks.same((len(state["places"]), state["odd"]), (len(GEAR) + 1, [9]), "a page knows four luminaires, and an address that is odd")
        (room.folder / "odd").write_text("[]")
        for command in ("run", "clear"):
            words = [PROGRAM, command, "--records", room.records, *(["--yes"] if command == "clear" else ["0-63"])]
            room.bus.write_text(json.dumps([*GEAR, "50000E"]))
            done = subprocess.run(words, env=room.env, capture_output=True, text=True, input="silence\n" * 99, timeout=WAIT)
            state = page.state()
            wanted = (5, [9]) if command == "run" else (0, [])
            checks.same((done.returncode, sum(it["random"] is not None for it in state["places"]), state["odd"]), (0, *wanted), f"after a {command} in a terminal")
            checks.say(not any(it["is"] == "there" for it in state["places"]), f"none is said to be there that was not asked since: {state['places']}")
        checks.same((state["checked"], marks.read(marks.file_of(room.records))), (None, marks.Marks()), "no mark is left when the records are put aside")
        checks.same(len(page.done(command="run")["places"]), 5, "and a run begins anew")


def check_missed(checks: Checks, folder: pathlib.Path) -> None:
    """Luminaires that the program misses are those which may be named as gone, whatever was heard of them last."""
    records = {str(at): it for at, it in enumerate(GEAR)}
    room, disturbed = Room(folder, records=records, gear=GEAR[2:]), "case $line in *0[13]C?*) echo damaged ;; *) echo silence ;; esac"
    (room.folder / "asked").write_text("[2]")
    with Page(room, "--driver", f"sh -c 'while read -r line; do {disturbed}; done'") as page:
        checks.same(page.done(command="run")["silent"], [2], "one answered to a run no more")
        for missing in ([], [1]):
            state = page.done(command="mend", missing=missing)
            checks.same((state["command"]["status"], state["silent"]), (11, [0, 1]), f"then the program misses two others, and named these: {missing}")
        found = {it["address"]: it["is"] for it in state["places"]}
        checks.same(found, {0: "silent", 1: "silent", 2: "enrolled", 3: "enrolled"}, "which is shown")
        checks.same(page.done(command="mend", missing=[0, 1])["command"]["status"], 0, "without them it is mended")
    room = Room(folder, records=records, gear=[*GEAR[1:3], "50000E"])
    with Page(room) as page:
        found = {it["address"]: it["is"] for it in page.done(command="check")["places"]}
        checks.same(found, {0: "missing", 1: "there", 2: "there", 3: "missing", 63: "stranger"}, "two are missing to a check")
        room.bus.write_text(json.dumps([*GEAR[2:], "50000E"]))
        state = page.done(command="replace", address=0, missing=[])
        found = {it["address"]: it["is"] for it in state["places"] if it["random"]}
        wanted = {0: "missing", 1: "silent", 2: "there", 3: "enrolled"}
        checks.same((state["command"]["status"], found), (11, wanted), "another one is to a replacement")


def check_ended(checks: Checks, _folder: pathlib.Path) -> None:
    """What ends by itself and is stopped at that moment: the signal reaches nothing, which is no fault of what sends it."""
    process = apart.Process([["true"], shlex.split(DRIVER), 10, False], (os.memfd_create("story"),))
    os.waitid(os.P_PID, process.pid, os.WEXITED | os.WNOWAIT)
    try:
        process.send_signal(signal.SIGTERM)
        checks.same(process.wait(), 0, "a command that has ended by itself is as it was")
    except ProcessLookupError as why:
        checks.say(False, f"a command that ends when it is stopped: {why}")


def check_not_kept(checks: Checks, folder: pathlib.Path) -> None:
    """What cannot be kept is known all the same."""
    room = Room(folder, records={str(at): it for at, it in enumerate(GEAR)}, gear=GEAR[1:])
    (room.folder / "site.marks.json.new").mkdir()
    with Page(room) as page:
        state = page.done(command="check")
        checks.same([it["is"] for it in state["places"]], ["missing", "there", "there", "there"], "a check whose marks cannot be kept is known")
        said = state["command"]["said"][-1]
        checks.say(said.startswith("what it came to is known, but not kept: "), f"and it is said that they are not kept: {said}")


def check_marks(checks: Checks, folder: pathlib.Path) -> None:
    """The file of the marks."""
    file = marks.file_of(folder / "site.db")
    checks.same((file.name, marks.read(file)), ("site.marks.json", marks.Marks()), "a file of marks that is not there has none")
    them = marks.Marks([3, 9], {5: ("another", GEAR[0]), 6: ("several", None)}, {(7, GEAR[1])}, 1.5)
    marks.keep(file, them)
    checks.same(marks.read(file), them, "marks are kept")
    good = json.loads(file.read_text())
    for bad in ({}, [], 5, {**good, "strangers": []}, {**good, "left_alone": [64]}, {**good, "missing": [5]}, {**good, "checked": "x"}):
        file.write_text(json.dumps(bad))
        checks.same(marks.read(file), marks.Marks(), f"a file that has no marks: {bad}")
    marks.keep(file, them)
    checks.same(marks.read(file), them, "is made anew")
