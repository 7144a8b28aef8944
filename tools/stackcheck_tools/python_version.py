"""Ends a tool that an older Python runs with one line and status 3; this file is read by any Python 3."""

import sys


def check() -> None:
    """Ends the tool if this Python is too old for it."""
    if sys.version_info < (3, 9):
        sys.stderr.write("stackbound: the tools need Python 3.9 or later, and this is Python " + sys.version.split()[0] + "\n")
        sys.exit(3)
