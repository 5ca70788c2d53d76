"""What the checks of tools/check/places are made of: records, gear and a page of them, with stubs for the program and the driver."""

import json
import os
import pathlib
import subprocess
import tempfile
import typing

from lib import ROOT, asking

PROGRAM = ROOT / "tools/lib/commission_stub.py"
DRIVER = "sh -c 'while read -r line; do echo silence; done'"
# A driver that tells each frame that it is to send, on a line of a file.
NOTES = "sh -c 'while read -r line; do echo \"$line\" >> {}; echo silence; done'"
GEAR = ["10000A", "20000B", "30000C", "40000D"]
WAIT = asking.WAIT


class Room:
    """A folder with a file of records, and the gear of a bus."""

    def __init__(self, folder: pathlib.Path, gear: typing.Sequence[str] = GEAR, records: dict[str, str] | None = None) -> None:
        self.folder = pathlib.Path(tempfile.mkdtemp(dir=folder))
        self.records, self.bus = self.folder / "site.db", self.folder / "bus.json"
        self.names, self.kept = self.folder / "site.names.json", self.folder / "site.db.page"
        self.bus.write_text(json.dumps(gear))
        if records is not None:
            self.records.write_text(json.dumps(records))
        self.env = dict(os.environ, LC_ALL="C.UTF-8", BUS=str(self.bus))
        # While it is there a command of the stub does not end.
        self.hold = self.folder / "hold"

    def words(self, *words: str) -> list[str]:
        return [str(ROOT / "dali_commission"), *words, "--program", str(PROGRAM), "--records", str(self.records)]

    def ran(self, *words: str, given: str = "") -> tuple[str, str, int]:
        done = subprocess.run(self.words(*words), input=given, capture_output=True, text=True, env=self.env, timeout=WAIT)
        return done.stdout, done.stderr, done.returncode


class Page(asking.Page):
    """A page that is served over the files of a room."""

    def __init__(self, room: Room, *words: str, **env: str) -> None:
        pipes = {"stdout": subprocess.PIPE, "stderr": subprocess.DEVNULL, "text": True}
        call = room.words("page", *([] if "--driver" in words else ["--driver", DRIVER]), *words)
        super().__init__(subprocess.Popen(call, env=room.env | env, **pipes))
