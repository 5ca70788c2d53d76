"""The table with the places of luminaires, which are kept beside the records by random address (places.py), and `identify --all`.

That lets one luminaire of the table after the other blink, those without a place first, until a line is typed: where it hangs."""

import argparse
import json
import os
import pathlib
import select
import subprocess

from yolgibat import apart, command, joining, places, programs, serials, standard, texts

NOBODY = 10


def table_of(program: str, chosen: argparse.Namespace) -> tuple[list[places.Row], int]:
    """The gear of the table, and the status of the program."""
    words = [program, "table", "--json", "--records", chosen.records]
    done = subprocess.run(words, stdin=subprocess.DEVNULL, stdout=subprocess.PIPE)
    return json.loads(done.stdout) if done.returncode == 0 else [], done.returncode


class Walk:
    """One luminaire after the other blinks, until its place is typed."""

    def __init__(self, program, driver, seconds, file, rows):
        self.program, self.driver, self.seconds, self.file = program, driver, seconds, file
        self.left, self.done, self.blinking, self.typed = sorted(rows, key=lambda it: bool(it["place"])), [], None, b""

    def run(self) -> int:
        """The status: 0, or that of the program if the driver or the output is at fault."""
        self.say_commands()
        while self.left:
            it = self.left[0]
            text = f" [{it['place']}]" if it["place"] else ""
            left = sum(not one["place"] for one in self.left)
            asked = {"address": it["address"], "random": it["random"], "left": left}
            standard.write(texts.text("walk:asks", standard.spoken, **asked) + f"{text} ")
            line, status = self.line_beside(it["address"])
            if status or line in (None, "/end"):
                return status
            self.do(line, it)
        return 0

    def do(self, line: str, it: places.Row) -> None:
        """Does what was typed while this luminaire blinked."""
        if line == "/back" and self.done:
            self.left.insert(0, self.done.pop())
        elif line == "/later":
            self.left.append(self.left.pop(0))
        elif not line.startswith("/"):
            self.done.append(self.left.pop(0))
            if line:
                it["place"] = places.note(self.file, it["random"], line)
        elif line not in ("/again", "/back"):
            self.say_commands()

    def say_commands(self) -> None:
        standard.write(texts.text("walk:commands", standard.spoken) + "\n")

    def line_beside(self, address: int) -> tuple[str | None, int]:
        """The line that is typed while a luminaire blinks, None at the end of the input; and its status, where it ended ill."""
        try:
            while True:
                status = self.blink(address)
                if status == NOBODY:
                    # It is said who does not answer: the line is waited for all the same.
                    select.select([0], [], [])
                elif status:
                    return None, status
                line, is_whole = self.typed_line()
                if is_whole:
                    return line, 0
        finally:
            self.stop()

    def blink(self, address: int) -> int:
        """Lets it blink until that ends or something is typed. Its status where it has ended."""
        if not self.blinking:
            self.blinking = apart.Process([[self.program, "identify", str(address)], self.driver, self.seconds, True])
        while self.blinking.poll() is None:
            if select.select([0], [], [], 0.1)[0]:
                return 0
        standard.say(self.blinking.stderr.read().decode(errors="replace"), "")
        status, self.blinking = self.blinking.returncode, None
        return status

    def typed_line(self) -> tuple[str | None, bool]:
        """What is typed up to a line feed, and whether that, or the end of the input, is there."""
        if not select.select([0], [], [], 0)[0] and b"\n" not in self.typed:
            return None, False
        if b"\n" not in self.typed:
            more = os.read(0, 4096)
            self.typed += more
            if not more:
                return None, True
        line, feed, rest = self.typed.partition(b"\n")
        if not feed:
            return None, False
        self.typed = rest
        return line.decode(errors="replace").strip(), True

    def stop(self) -> None:
        """Ends the blinking: the luminaire is bright then. What is said of that end is none of the walk's."""
        if self.blinking:
            self.blinking.terminate()
            self.blinking.communicate()
            self.blinking = None


def walks(program: str, chosen: argparse.Namespace, rows: list[places.Row], file: pathlib.Path) -> int:
    walk = Walk(program, chosen.driver, chosen.seconds, file, rows)
    try:
        return walk.run()
    except standard.Unwritten as why:
        standard.say(f"dali_commission: {why}")
        return standard.UNWRITTEN
    finally:
        walk.stop()


def main(chosen: argparse.Namespace) -> int:
    if chosen.task == "identify" and not programs.can_start("dali_commission", chosen.driver):
        return joining.NOT_STARTED
    program, status = programs.commission(chosen.program)
    if status:
        return status
    table, status = table_of(program, chosen)
    if status:
        return status
    file = places.file_of(chosen.records)
    rows = places.rows(table, places.read(file), serials.read(serials.file_of(chosen.records)))
    if chosen.task == "identify":
        return walks(program, chosen, rows, file)
    if chosen.csv:
        return standard.ended(places.as_csv(rows, is_german=chosen.csv == command.GERMAN), 0)
    return standard.ended((places.as_json if chosen.json else places.as_text)(rows), 0)
