"""Where the files lie that belong to the tools: in the package itself if a wheel has it, else at the top of a checkout or of an
installation."""

from __future__ import annotations

import os
from typing import Optional

PACKAGE = os.path.dirname(os.path.realpath(__file__))
TOP = os.path.normpath(os.path.join(PACKAGE, "..", ".."))
# of a checkout; of an installation, whose tools lie in PREFIX/lib/stackbound/tools; of a wheel, whose package lies in
# PREFIX/lib/pythonX.Y/site-packages
DOCUMENTS = (os.path.join(TOP, "docs"), os.path.normpath(os.path.join(TOP, "..", "..", "share", "doc", "stackbound")))


def first(*paths: str) -> Optional[str]:
    """The first of these that is there."""
    return next((it for it in paths if os.path.exists(it)), None)


def program() -> str:
    """The path of the program that is called: that of $STACKBOUND, else the one that lies with the tools."""
    beside = os.path.join(TOP, "stackbound")
    return os.environ.get("STACKBOUND") or first(os.path.join(PACKAGE, "bin", "stackbound"), beside) or beside


def version() -> str:
    """The version of the tools."""
    path = first(os.path.join(PACKAGE, "VERSION"), os.path.join(TOP, "VERSION"))
    if path is None:
        return "unknown"
    with open(path, encoding="ascii") as file:
        return file.read().strip()


def document(name: str) -> Optional[str]:
    """The path of a document; None where none was installed."""
    return first(*(os.path.join(folder, name) for folder in DOCUMENTS))
