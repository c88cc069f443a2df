"""Compiles firmware for tests, by avr-gcc."""
import os
import shutil
import subprocess
from pathlib import Path

import pytest

SOURCES = Path(__file__).resolve().parent / "firmware"
PROGRAM = os.environ.get("AVRORA_PROGRAM")

needs_program = pytest.mark.skipif(not PROGRAM, reason="AVRORA_PROGRAM names no program")
needs_compiler = pytest.mark.skipif(not shutil.which("avr-gcc"), reason="avr-gcc is not installed")


def compiled(source, folder, *options):
    """The ELF file of a C source (a file of SOURCES, or a path) in a folder, with its image beside it."""
    source = SOURCES / source
    elf = Path(folder) / f"{source.stem}.elf"
    words = ["avr-gcc", "-mmcu=atmega128", "-gdwarf-2", "-w", f"-I{SOURCES}", *options, str(source), "-o", str(elf)]
    subprocess.run(words, check=True, capture_output=True)
    subprocess.run(["avr-objcopy", "-O", "ihex", str(elf), str(elf.with_suffix(".hex"))], check=True)
    return elf


def scenario(image, path, at=300_000, cycles=330_000, hex_="41", more=""):
    """Writes a scenario of one node with a byte of input; its path."""
    path = Path(path)
    text = f'cycles = {cycles}\n{more}\n[[node]]\nimage = "{image}"\n\n[[input]]\nnode = 0\nat = {at}\nhex = "{hex_}"\n'
    path.write_text(text, encoding="utf-8")
    return path
