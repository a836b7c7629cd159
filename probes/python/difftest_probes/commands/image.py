"""Makes the image of an ELF file: the bytes of RAM before the first cycle."""

from __future__ import annotations

import argparse

from ..elf import image_of, read_elf
from ..outputs import replacing
from ..records import RAM_START


def add_words(parser: argparse.ArgumentParser) -> None:
    """The words of the command."""
    parser.add_argument("elf", help="an ELF file of 64-bit RISC-V whose sections lie in RAM")
    parser.add_argument("output", help="the image to write")


def run(words: argparse.Namespace) -> int:
    """Writes the image."""
    with open(words.elf, "rb") as source:
        elf = read_elf(source.read())
    image = image_of(elf)
    with replacing(words.output) as out:
        out.write(image)
    print(f"{words.output}: {len(image)} bytes from {RAM_START:x}")
    if elf.entry != RAM_START:
        print(f"note: the entry is {elf.entry:x}, but every hart begins at {RAM_START:x}")
    return 0
