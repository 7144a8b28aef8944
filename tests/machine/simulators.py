"""Runs a firmware that tests itself: by the program, by libsimavr, by QEMU and by gdb's simulator."""
import os
import pathlib
import re
import shutil
import socket
import subprocess
import time
import typing

from self_test import SelfTest

HERE = pathlib.Path(__file__).resolve().parent
MOST = 16_777_216  # the most equal choices in a line of a schedule
BOARDS = {"atmega328p": "uno", "atmega2560": "mega2560"}                       # of QEMU
ARCHITECTURES = {"atmega328p": "avr:5", "attiny85": "avr:25", "atmega8": "avr:4"}  # of gdb, which has no `elpm`


class Outcome(typing.NamedTuple):
    """Where a run ended, and its steps and depth; -1 where a simulator does not count them."""
    said: str
    steps: int = -1
    depth: int = -1


class Fault(typing.NamedTuple):
    """A fault of a machine, as self_test.c plants it."""
    mask: int
    value: int
    once: int      # the execution of such an instruction at which it happens, from 1; 0: at each
    kind: str
    argument: int
    bits: int

    def words(self) -> "list[str]":
        return ["fault", f"{self.mask:X}", f"{self.value:X}", str(self.once), self.kind, f"{self.argument:X}", f"{self.bits:X}"]


def is_installed() -> bool:
    """Whether there is a C compiler with libsimavr and the headers for it."""
    if not shutil.which("cc"):
        return False
    trial = subprocess.run(["cc", "-fsyntax-only", "-x", "c", "-include", "simavr/sim_avr.h", os.devnull], stderr=subprocess.DEVNULL)
    return trial.returncode == 0


def compiled(source: str, work: pathlib.Path) -> str:
    """A driver of libsimavr, compiled."""
    driver = work / source.replace(".c", "")
    subprocess.run(["cc", "-O2", "-o", str(driver), str(HERE / source), "-lsimavr"], check=True)
    return str(driver)


class Simavr:
    def __init__(self, work: pathlib.Path):
        self.driver = compiled("self_test.c", work)

    def _lines(self, test: SelfTest, path: pathlib.Path, most: int, *further: str) -> "list[str]":
        end = test.failing + len(test.checks)
        words = [self.driver, test.device.name, str(path), f"{test.passing:X}", f"{end:X}", str(most), *further]
        said = subprocess.run(words, stdout=subprocess.PIPE, stderr=subprocess.DEVNULL, encoding="utf8")
        # libsimavr prints lines of its own for some devices
        return [line for line in said.stdout.splitlines() if re.fullmatch(r"[0-9A-F]{8}|[0-9A-F]{4} \d+|steps .*", line)]

    def digests(self, test: SelfTest, path: pathlib.Path) -> "list[int]":
        """The digest at each check, without regard to what the table in the image says."""
        places = [f"{test.labels[f'check {number}']:X},{test.labels[f'success {number}']:X}" for number in range(len(test.checks))]
        return [int(line, 16) for line in self._lines(test, path, 2 * MOST, "find", *places)]

    def run(self, test: SelfTest, path: pathlib.Path) -> "tuple[Outcome, dict[int, int]]":
        """The run, and how often each first word was executed."""
        lines = self._lines(test, path, 2 * MOST)
        return self._outcome(test, lines), {int(word, 16): int(count) for word, count in (line.split() for line in lines[1:])}

    def faulty(self, test: SelfTest, path: pathlib.Path, fault: Fault, most: int) -> Outcome:
        """The run of a machine that has a fault, of so many steps at most."""
        return self._outcome(test, self._lines(test, path, most, *fault.words()))

    @staticmethod
    def _outcome(test: SelfTest, lines: "list[str]") -> Outcome:
        found = re.fullmatch(r"steps (\d+) depth (-?\d+) at ([0-9A-F]+)", lines[0] if lines else "")
        return Outcome(test.outcome(int(found[3], 16)), int(found[1]), int(found[2])) if found else Outcome("does not end")


def by_program(program: str, test: SelfTest, path: pathlib.Path, work: pathlib.Path) -> Outcome:
    schedule = work / "schedule"
    schedule.write_text(f"schedule 1\nfill 00\ngo {MOST} 00 00\nend\n")
    said = subprocess.run([program, "run", str(path), str(schedule), "--device", test.device.name], stdout=subprocess.PIPE,
                          stderr=subprocess.STDOUT, encoding="utf8")
    found = re.fullmatch(r"steps (\d+) depth (\d+) stop undefined ([0-9A-F]+)\n", said.stdout)
    if not found:
        return Outcome(said.stdout.strip() or f"ends with status {said.returncode}")
    return Outcome(test.outcome(int(found[3], 16)), int(found[1]), int(found[2]))


class Stub:
    """A connection to the stub for gdb inside QEMU."""

    def __init__(self, board: str, image: pathlib.Path, work: pathlib.Path):
        self.path = work / "stub"
        self.path.unlink(missing_ok=True)
        self.process = subprocess.Popen(
            ["qemu-system-avr", "-M", board, "-bios", str(image), "-display", "none", "-S", "-serial", "none", "-monitor", "none",
             "-gdb", f"unix:{self.path},server=on,wait=off"],
            stdin=subprocess.DEVNULL, stdout=subprocess.DEVNULL, stderr=subprocess.DEVNULL)
        self.socket = self._connected()
        self.rest = b""

    def _connected(self) -> socket.socket:
        for _ in range(400):
            made = socket.socket(socket.AF_UNIX)
            try:
                made.connect(str(self.path))
                return made
            except OSError:
                made.close()
                time.sleep(0.05)
        raise OSError("QEMU opens no stub")

    def ask(self, text: str) -> str:
        """The answer to a packet."""
        self.socket.settimeout(60)
        self.socket.sendall(f"${text}#{sum(text.encode()) & 255:02x}".encode())
        while True:
            if found := re.search(rb"\$([^#]*)#..", self.rest):
                self.rest = self.rest[found.end():]
                self.socket.sendall(b"+")
                return found[1].decode()
            piece = self.socket.recv(65536)
            if not piece:
                raise OSError("QEMU ended")
            self.rest += piece

    def close(self) -> None:
        self.process.kill()
        self.process.wait()
        self.socket.close()


COUNTER = slice(35, 39)  # the program counter in bytes, among the registers that the stub shows


def by_qemu(test: SelfTest, path: pathlib.Path, work: pathlib.Path) -> Outcome:
    stops = test.stops()
    stub = Stub(BOARDS[test.device.name], path, work)
    try:
        stub.ask("?")
        for word in stops:
            stub.ask(f"Z0,{2 * word:x},2")
        stub.ask("c")
        word = int.from_bytes(bytes.fromhex(stub.ask("g"))[COUNTER], "little") // 2
        return Outcome(stops.get(word, f"stops at word {word:04X}"))
    except OSError as fault:
        return Outcome(f"does not end: {fault}")
    finally:
        stub.close()


def by_gdb(test: SelfTest, path: pathlib.Path, work: pathlib.Path) -> Outcome:
    program, script, stops = work / "image.elf", work / "script", test.stops()
    subprocess.run(["avr-objcopy", "-I", "binary", "-O", "elf32-avr", "--rename-section", ".data=.text,alloc,load,code,contents", str(path),
                    str(program)], check=True)
    script.write_text(f"set pagination off\nset architecture {ARCHITECTURES[test.device.name]}\ntarget sim\nfile {program}\nload\n"
                      + "".join(f"break *0x{2 * word:X}\n" for word in stops) + "run\nprint/x $PC2\n")
    try:
        said = subprocess.run(["avr-gdb", "-batch", "-nx", "-x", str(script)], stdin=subprocess.DEVNULL, stdout=subprocess.PIPE,
                              stderr=subprocess.DEVNULL, encoding="utf8", timeout=100)
    except subprocess.TimeoutExpired:
        return Outcome("does not end")
    found = re.search(r"^\$1 = 0x([0-9a-f]+)$", said.stdout, re.M)
    word = int(found[1], 16) // 2 if found else -1
    return Outcome(stops.get(word, f"stops at word {word:04X}") if found else "does not end")


def devices_of(other: str) -> "typing.Iterable[str]":
    return BOARDS if other == "QEMU" else ARCHITECTURES


def by_other(other: str, test: SelfTest, path: pathlib.Path, work: pathlib.Path) -> Outcome:
    return by_qemu(test, path, work) if other == "QEMU" else by_gdb(test, path, work)
