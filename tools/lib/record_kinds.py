"""The kinds of records, each with its code, as the header for C has them. The lint compares the header with the code."""

import pathlib
import re

from lib import ROOT

HEADER = ROOT / "include/dali_c.h"


def read_kinds(header: pathlib.Path) -> dict[str, int]:
    """The code of each kind, by its name in capitals."""
    listed = re.search(r"^enum dali_record_kind \{(.*?)\}", header.read_text(encoding="utf-8"), re.M | re.S)[1]
    return {name: int(code) for name, code in re.findall(r"DALI_(\w+) = (\d+)", listed)}


KINDS = read_kinds(HEADER)
RESERVE, ENROL, RELEASE = KINDS["RESERVE"], KINDS["ENROL"], KINDS["RELEASE"]
