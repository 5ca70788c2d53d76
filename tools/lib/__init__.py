"""Modules of the commands in tools/, tools/check/ and tools/measure/, with the data that they read. They may import `yolgibat`."""

import pathlib
import sys

# The folder of the repository.
ROOT = pathlib.Path(__file__).resolve().parents[2]
sys.path.append(str(ROOT))
