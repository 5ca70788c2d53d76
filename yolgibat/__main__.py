"""What the launchers start: python3 -S yolgibat/__main__.py LAUNCHER [WORD].."""

import pathlib
import sys

sys.path[0] = str(pathlib.Path(__file__).resolve().parents[1])

from yolgibat import command  # noqa: E402

sys.exit(command.main(*sys.argv[1:]))
