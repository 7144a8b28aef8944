"""Modules of the tools as an earlier call compiled them. Nothing is written beside the sources, so that a checkout stays as it is: what is
compiled lies in the user's cache folder. It is checked against its source by a digest, as that of an installation is."""

from __future__ import annotations

import importlib.util
import os
import sys
from importlib.machinery import SOURCE_SUFFIXES, FileFinder, SourceFileLoader
from types import CodeType
from typing import Optional

PACKAGE = os.path.dirname(__file__)


def folder() -> str:
    """The folder of what is compiled."""
    cache = os.environ.get("XDG_CACHE_HOME", "")
    return os.path.join(cache if os.path.isabs(cache) else os.path.join(os.path.expanduser("~"), ".cache"), "stackbound")


def is_own(path: str) -> bool:
    """Whether this user alone may write into a folder, which is made where it isn't there and something may be written."""
    try:
        if not sys.flags.dont_write_bytecode:
            os.makedirs(path, 0o700, exist_ok=True)
        found = os.stat(path)
    except OSError:
        return False
    is_of_others = hasattr(os, "geteuid") and (found.st_uid != os.geteuid() or found.st_mode & 0o022)
    return os.access(path, os.W_OK) and not is_of_others


def compile_module(path: str) -> None:
    """Writes a module as it is compiled, if that can be done; it is kept for other calls alone."""
    import py_compile  # few calls need it
    try:
        py_compile.compile(path, doraise=True, invalidation_mode=py_compile.PycInvalidationMode.CHECKED_HASH)
    except (OSError, py_compile.PyCompileError):
        pass


class Loader(SourceFileLoader):
    """Reads a module as it was compiled, and its source where it has changed or may not be kept."""

    def get_code(self, fullname: str) -> Optional[CodeType]:
        before = sys.pycache_prefix, sys.dont_write_bytecode
        sys.pycache_prefix, sys.dont_write_bytecode = folder(), bool(sys.flags.dont_write_bytecode)
        try:
            if not sys.dont_write_bytecode and not os.path.exists(importlib.util.cache_from_source(self.path)):
                compile_module(self.path)
            return super().get_code(fullname)
        finally:
            sys.pycache_prefix, sys.dont_write_bytecode = before


def finder(path: str) -> FileFinder:
    """Finds modules of the package alone."""
    if path != PACKAGE and not path.startswith(PACKAGE + os.sep):
        raise ImportError
    return FileFinder(path, (Loader, SOURCE_SUFFIXES))


def use() -> None:
    """Has the modules that are imported from now on read so, if they aren't compiled beside their sources."""
    if not os.path.exists(importlib.util.cache_from_source(__file__)) and is_own(folder()):
        sys.path_hooks.insert(0, finder)
        sys.path_importer_cache.pop(PACKAGE, None)
