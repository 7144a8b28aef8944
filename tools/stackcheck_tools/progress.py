"""How far a tool is: a line on a terminal's error stream that is written over, once the work has taken a while."""

from __future__ import annotations

import sys
import threading
import time


SILENT, EVERY = 2.0, 0.5  # seconds until the first line, and between two
stage = ""


def at(text: str) -> None:
    """Says what is being done."""
    global stage
    stage = text


class Shown:
    """Shows the stage while a block works, and takes the line away at its end; nothing where the error stream is no terminal."""

    def __init__(self, name: str) -> None:
        self.name, self.ended, self.is_shown = name, threading.Event(), False
        self.thread = threading.Thread(target=self.show, daemon=True)

    def show(self) -> None:
        start = time.monotonic()
        wait = SILENT
        while not self.ended.wait(wait):
            wait, self.is_shown = EVERY, True
            print(f"\r{self.name}: {stage}, {time.monotonic() - start:.0f} s\033[K", end="", file=sys.stderr, flush=True)

    def __enter__(self) -> Shown:
        if sys.stderr.isatty():
            self.thread.start()
        return self

    def __exit__(self, *_: object) -> None:
        self.ended.set()
        if self.thread.is_alive():
            self.thread.join()
        if self.is_shown:
            print("\r\033[K", end="", file=sys.stderr, flush=True)
