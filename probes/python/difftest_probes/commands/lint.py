"""Finds instructions and registers outside the profile, before any simulation.

Of an ELF file it looks at all sections with code. Of an image it looks at what is reached from 80000000 by
jumps and branches, and cannot know what an address in a register leads to: trap handlers, returns and
function pointers. An instruction outside the profile is a fault only where a hart runs it. Status: 0
without findings or with notes alone, 1 with faults.
"""

from __future__ import annotations

import argparse
from typing import Callable, List, Tuple

from ..assembly import disassemble
from ..code import Place, code_of_elf, code_of_image
from ..elf import image_of, is_elf, read_elf
from ..profile import Finding, finding_of
from ..records import MOST_IMAGE_BYTES, RAM_START
from ..writer import ProbeError


def add_words(parser: argparse.ArgumentParser) -> None:
    """The words of the command."""
    parser.add_argument("file", help="an ELF file or an image")


def _nowhere(_address: int) -> str:
    return ""


def _code(data: bytes) -> Tuple[List[Place], Callable[[int], str], int]:
    """The instructions to look at, the names of places, and how many bytes the image has."""
    if is_elf(data):
        elf = read_elf(data)
        return list(code_of_elf(elf)), elf.place_of, len(image_of(elf))
    if len(data) > MOST_IMAGE_BYTES:
        raise ProbeError(f"the image has {len(data)} bytes; an image has at most {MOST_IMAGE_BYTES}")
    return list(code_of_image(data)), _nowhere, len(data)


def run(words: argparse.Namespace) -> int:
    """Prints the findings."""
    with open(words.file, "rb") as source:
        data = source.read()
    places, name_of, size = _code(data)
    found: List[Tuple[Place, Finding]] = []
    for place in places:
        finding = finding_of(place.bits)
        if finding:
            found.append((place, finding))
    texts = disassemble((place.address, place.bits) for place, _ in found)
    for place, finding in found:
        name = name_of(place.address)
        where = f"{place.address:x}" + (f" <{name}>" if name else "")
        sort = "fault" if finding.is_fault else "note"
        print(f"{sort} {where}: {texts[place.address, place.bits]}: {finding.text}")
    if places and places[0].address != RAM_START and is_elf(data):
        print(f"note: no code begins at {RAM_START:x}, where every hart begins")
    faults = sum(finding.is_fault for _, finding in found)
    print(f"{words.file}: {len(places)} instructions, {size} bytes of image, {faults} outside the profile")
    return 1 if faults else 0
