"""Calls of `stackbound`: the one that $STACKBOUND names, else the one beside the tools, which is the launcher in a checkout."""

from __future__ import annotations

import os
import subprocess
from typing import Dict, List, Optional, Tuple

from stackcheck_tools import home, progress
from stackcheck_tools.finding import Fault

OK, SCHEDULE, REFUSED = 0, 9, 10
UNBUILT = 70  # the launcher's, where no proved program stands that is of its sources
WORK = {"analyse": "analysing", "check": "checking", "report": "checking",
        "attain": "seeking a run as deep as the bound"}  # what takes long, but for trial runs


class NoProgram(Fault):
    """The program cannot be run, or does not answer as it should."""

    rule = "SB009"


class Program:
    """Calls on one firmware, device and assumption file."""

    def __init__(self, firmware: str, device: str, assumptions: Optional[str] = None) -> None:
        self.path = home.program()
        self.firmware, self.options = firmware, ["--device", device] + (["--assume", assumptions] if assumptions else [])
        self.begun: Dict[Tuple[str, ...], subprocess.Popen[bytes]] = {}

    def begin(self, *words: str) -> None:
        """Lets a command run whose answer a later `call` asks for, so that several run side by side."""
        try:
            # a checkout's launcher would prove and build the program first, for an hour or more
            environment = {**os.environ, "STACKBOUND_BUILD": "no"}
            self.begun[words] = subprocess.Popen([self.path, words[0], self.firmware, *words[1:], *self.options],
                                                 env=environment, stdin=subprocess.DEVNULL, stdout=subprocess.PIPE)
        except OSError as fault:
            self.end()
            raise NoProgram(f"{self.path}: {fault.strerror}") from None

    def end(self) -> None:
        """Ends all that was begun and isn't asked for any more."""
        for said in self.begun.values():
            said.kill()
            said.communicate()
        self.begun.clear()

    def call(self, *words: str) -> Tuple[int, str]:
        """The status and the text of one command."""
        if words[0] in WORK:
            progress.at(WORK[words[0]])
        if words not in self.begun:
            self.begin(*words)
        try:
            text, _ = self.begun[words].communicate()
        except BaseException:
            self.end()
            raise
        said = self.begun.pop(words)
        if said.returncode == UNBUILT:
            raise NoProgram(f"{os.path.normpath(self.path)} must be built first: run `stackbound build` there, or name another program in "
                            f"$STACKBOUND")
        return said.returncode, text.decode("ascii", "replace")

    def lines(self, command: str, *words: str) -> List[str]:
        """The lines of a command that has no other answer."""
        status, text = self.call(command, *words)
        if status != OK:
            raise NoProgram(f"{command}: status {status}: {text.strip()}")
        return text.splitlines()
