"""Meaning of the 16-bit instructions as 32-bit words."""

from __future__ import annotations

from typing import Optional, Tuple

from . import assembler as asm
from .decoding import Instruction, decode


def _pick(half: int, *places: Tuple[int, int]) -> int:
    """Gathers bits: each place is (bit of the answer, bit of the half word)."""
    return sum((half >> source & 1) << target for target, source in places)


def _signed(value: int, bits: int) -> int:
    return value - (1 << bits) if value >> (bits - 1) else value


def _first_quadrant(half: int) -> Optional[int]:
    form = half >> 13
    low, high = 8 + (half >> 2 & 7), 8 + (half >> 7 & 7)
    words = _pick(half, (5, 12), (4, 11), (3, 10), (2, 6), (6, 5))
    doubles = _pick(half, (5, 12), (4, 11), (3, 10), (7, 6), (6, 5))
    if form == 0:
        imm = _pick(half, (5, 12), (4, 11), (9, 10), (8, 9), (7, 8), (6, 7), (2, 6), (3, 5))
        return asm.addi(low, 2, imm) if imm else None
    if form == 2:
        return asm.load(4, True, low, high, words)
    if form == 3:
        return asm.load(8, True, low, high, doubles)
    if form == 6:
        return asm.store(4, low, high, words)
    if form == 7:
        return asm.store(8, low, high, doubles)
    return None


def _second_arithmetic(half: int) -> Optional[int]:
    rd, rs2 = 8 + (half >> 7 & 7), 8 + (half >> 2 & 7)
    part = half >> 10 & 3
    amount = (half >> 12 & 1) << 5 | half >> 2 & 31
    if part == 0:
        return asm.shift("srl", rd, rd, amount)
    if part == 1:
        return asm.shift("sra", rd, rd, amount)
    if part == 2:
        return asm.immediate_form(0x13, 7, rd, rd, _signed(amount, 6))
    if half >> 12 & 1:
        word_form = {0: "sub", 1: "add"}.get(half >> 5 & 3)
        return asm.register_form(word_form, rd, rd, rs2, word=True) if word_form else None
    name = ("sub", "xor", "or", "and")[half >> 5 & 3]
    return asm.register_form(name, rd, rd, rs2)


def _second_upper(half: int, rd: int) -> Optional[int]:
    if rd == 2:
        imm = _pick(half, (9, 12), (4, 6), (6, 5), (8, 4), (7, 3), (5, 2))
        return asm.addi(2, 2, _signed(imm, 10)) if imm else None
    imm = (half >> 12 & 1) << 5 | half >> 2 & 31
    return asm.upper(rd, _signed(imm, 6), False) if imm else None


def _second_quadrant(half: int) -> Optional[int]:
    form, rd = half >> 13, half >> 7 & 31
    small = _signed((half >> 12 & 1) << 5 | half >> 2 & 31, 6)
    if form == 0:
        return asm.addi(rd, rd, small)
    if form == 1:
        return asm.addi(rd, rd, small, word=True) if rd else None
    if form == 2:
        return asm.addi(rd, 0, small)
    if form == 3:
        return _second_upper(half, rd)
    if form == 4:
        return _second_arithmetic(half)
    if form == 5:
        imm = _pick(
            half, (11, 12), (4, 11), (9, 10), (8, 9), (10, 8), (6, 7), (7, 6), (3, 5), (2, 4), (1, 3), (5, 2)
        )
        return asm.jal(0, _signed(imm, 12))
    imm = _pick(half, (8, 12), (4, 11), (3, 10), (7, 6), (6, 5), (2, 4), (1, 3), (5, 2))
    return asm.branch("eq" if form == 6 else "ne", 8 + (half >> 7 & 7), 0, _signed(imm, 9))


def _third_jump(half: int, rd: int, rs2: int) -> Optional[int]:
    if half >> 12 & 1 == 0:
        if rs2:
            return asm.register_form("add", rd, 0, rs2)
        return asm.immediate_form(0x67, 0, 0, rd, 0) if rd else None
    if rs2:
        return asm.register_form("add", rd, rd, rs2)
    return asm.immediate_form(0x67, 0, 1, rd, 0) if rd else asm.EBREAK


def _third_quadrant(half: int) -> Optional[int]:
    form, rd, rs2 = half >> 13, half >> 7 & 31, half >> 2 & 31
    top = half >> 12 & 1
    if form == 0:
        return asm.shift("sll", rd, rd, top << 5 | rs2)
    if form == 2:
        imm = top << 5 | (rs2 >> 2) << 2 | (rs2 & 3) << 6
        return asm.load(4, True, rd, 2, imm) if rd else None
    if form == 3:
        imm = top << 5 | (rs2 >> 3) << 3 | (rs2 & 7) << 6
        return asm.load(8, True, rd, 2, imm) if rd else None
    if form == 4:
        return _third_jump(half, rd, rs2)
    high = half >> 7 & 63
    if form == 6:
        return asm.store(4, rs2, 2, (high >> 2) << 2 | (high & 3) << 6)
    if form == 7:
        return asm.store(8, rs2, 2, (high >> 3) << 3 | (high & 7) << 6)
    return None


def expand(half: int) -> Optional[int]:
    """The 32-bit word that a 16-bit instruction stands for, or None."""
    quadrant = half & 3
    if quadrant == 0:
        return _first_quadrant(half)
    if quadrant == 1:
        return _second_quadrant(half)
    return _third_quadrant(half) if quadrant == 2 else None


def meaning_of(bits: int) -> Optional[Instruction]:
    """The instruction that fetched bits stand for, or None."""
    if bits & 3 == 3:
        return decode(bits)
    word = expand(bits)
    return None if word is None else decode(word)
