"""Which instructions a program may run: those of an ELF file's code, or those that are reached in an image."""

from __future__ import annotations

from typing import Dict, Iterator, List, NamedTuple, Tuple

from .elf import Elf
from .isa.compressed import meaning_of
from .isa.fields import wrap
from .records import RAM_START

# After these nothing follows, or only what an address in a register names.
_LAST = ("jalr", "mret", "sret", "ecall", "ebreak")


class Place(NamedTuple):
    """An instruction in memory."""

    address: int
    bits: int


def _bits_at(content: bytes, at: int) -> Tuple[int, int]:
    """The instruction at a place and its length; the length is 0 where the bytes stop."""
    low = int.from_bytes(content[at : at + 2], "little")
    length = 4 if low & 3 == 3 else 2
    if at + length > len(content):
        return 0, 0
    return int.from_bytes(content[at : at + length], "little"), length


def code_of_elf(elf: Elf) -> Iterator[Place]:
    """The instructions of all sections with code, one behind the other; filling zeros are left out."""
    for section in elf.code:
        at = 0
        while at < len(section.content):
            bits, length = _bits_at(section.content, at)
            if not length:
                break
            if bits:
                yield Place(section.address + at, bits)
            at += length


def _followers(place: Place, length: int) -> List[int]:
    """Where a hart may go from an instruction, as far as the instruction says."""
    instruction = meaning_of(place.bits)
    following = wrap(place.address + length)
    if instruction is None:
        return []
    target = wrap(place.address + instruction.imm)
    if instruction.group == "jal":
        return [target, following] if instruction.rd else [target]
    if instruction.group == "branch":
        return [target, following]
    if instruction.group in _LAST:
        return [following] if instruction.rd or instruction.group == "ecall" else []
    return [following]


def code_of_image(image: bytes) -> Iterator[Place]:
    """The instructions that are reached from the reset by jumps whose targets stand in them."""
    seen: Dict[int, Place] = {}
    waiting = [RAM_START]
    while waiting:
        address = waiting.pop()
        if address in seen or address < RAM_START:
            continue
        bits, length = _bits_at(image, address - RAM_START)
        if length:
            seen[address] = Place(address, bits)
            waiting += _followers(seen[address], length)
    return iter(sorted(seen.values()))
