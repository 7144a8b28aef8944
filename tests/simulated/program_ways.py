"""The ways in which random programs of C++ are compiled."""

from __future__ import annotations

import os
import subprocess

import simulated
from hierarchy import Program

RECORDS = "-Wl,--emit-relocs"
WAYS = (
    f"-mmcu=atmega328p -Os {RECORDS}", "-mmcu=atmega328p -Os", f"-mmcu=atmega328p -O0 {RECORDS}", f"-mmcu=atmega328p -O2 {RECORDS}",
    "-mmcu=atmega328p -O3", f"-mmcu=atmega2560 -Os {RECORDS}", f"-mmcu=atmega328p -Os -mcall-prologues {RECORDS}",
    f"-mmcu=atmega328p -Os -flto -ffunction-sections -Wl,--gc-sections {RECORDS}", f"-mmcu=atmega32u4 -O1 -fno-inline {RECORDS}",
    "-mmcu=atmega328p -O0", f"-mmcu=atmega2560 -O3 {RECORDS}", "-mmcu=atmega328p -O1 -fno-tree-ter -fno-devirtualize")


def compiled(number: int, way: str, folder: str) -> simulated.Elf:
    source, elf = os.path.join(folder, "program.cpp"), os.path.join(folder, "program.elf")
    with open(source, "w", encoding="ascii") as file:
        file.write(Program(number).text())
    words = ["avr-g++", *way.split(), "-w", "-std=gnu++11", "-fno-exceptions", "-fno-threadsafe-statics", "-g", "-o", elf, source]
    subprocess.run(words, check=True)
    return simulated.Elf(elf)
