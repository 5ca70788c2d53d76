"""What checks are made of: what was right and wrong, and parts that are made side by side."""

import collections
import collections.abc
import concurrent.futures
import pathlib
import tempfile
import threading
import typing

# How much is said of what is wrong.
LONGEST = 2000


class Checks:
    """What was checked, each by its name: how often it was right, and how often wrong. Threads share it.

    What is wrong is a line at once; of "all" what is right, too; of "names" each name is a line in the end."""

    def __init__(self, tells: typing.Literal["wrong", "all", "names"] = "wrong") -> None:
        self.tells, self.lock = tells, threading.Lock()
        self.right, self.wrong, self.seen = collections.Counter(), collections.Counter(), collections.Counter()

    def check(self, name: object, is_so: object, detail: object = "") -> bool:
        with self.lock:
            (self.right if is_so else self.wrong)[str(name)] += 1
            if self.tells == "all" or not is_so and (self.tells == "wrong" or detail != ""):
                print(f"{'right' if is_so else 'wrong'}: {name}" + (f": {detail!s:.{LONGEST}}" if detail != "" and not is_so else ""), flush=True)
        return bool(is_so)

    def say(self, is_so: object, name: object, detail: object = "") -> bool:
        return self.check(name, is_so, detail)

    def same(self, found: object, wanted: object, name: object) -> bool:
        return self.check(name, found == wanted, f"{found!r:.{LONGEST}}, and not {wanted!r:.{LONGEST}}")

    def count(self, name: str, times: int = 1) -> None:
        """Something was seen so often."""
        with self.lock:
            self.seen[name] += times

    def end(self) -> int:
        """Says what was seen and how it ended, with the line that callers read; the status of the check."""
        names = sorted({*self.right, *self.wrong})
        for name in sorted(self.seen):
            print(f"{self.seen[name]} {name}")
        for name in names if self.tells == "names" else ():
            wrong, count = self.wrong[name], self.right[name] + self.wrong[name]
            print(f"wrong: {name}, {wrong} of {count} times" if wrong else f"right: {name}, {count} times")
        print(f"{len(names) - len(self.wrong)} right, {len(self.wrong)} wrong")
        return 1 if self.wrong else 0


def in_rooms(checks: Checks, parts: collections.abc.Sequence[collections.abc.Callable[[Checks, pathlib.Path], None]], lanes: int = 0) -> None:
    """Makes parts of a check side by side, each in a folder of its own."""
    with tempfile.TemporaryDirectory() as folder, concurrent.futures.ThreadPoolExecutor(lanes or len(parts)) as pool:
        rooms = [pathlib.Path(folder, it.__name__) for it in parts]
        for it in rooms:
            it.mkdir()
        for done in [pool.submit(it, checks, room) for it, room in zip(parts, rooms)]:
            done.result()
