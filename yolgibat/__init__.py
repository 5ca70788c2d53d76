"""All that a user runs, but the programs; what makes these is in tools/, of which nothing is imported here."""

import pathlib
import sys

if sys.version_info < (3, 10):
    sys.exit("Python %d.%d is too old: version 3.10 or later is needed" % sys.version_info[:2])

# The folder of the repository, or of the package.
ROOT = pathlib.Path(__file__).resolve().parents[1]
