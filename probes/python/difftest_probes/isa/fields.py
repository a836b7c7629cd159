"""Numbers of the machine that several modules share."""

from __future__ import annotations

from ..records import INTERRUPT_FLAG, LINE_BYTES, RAM_END, RAM_START, in_ram, line_of

ALL_ONES = (1 << 64) - 1
SIGN_BIT = 1 << 63

USER, SUPERVISOR, MACHINE = 0, 1, 3

INTERRUPT_CODES = (1, 3, 5, 7, 9, 11)

FETCH_ACCESS, ILLEGAL, BREAKPOINT = 1, 2, 3
LOAD_MISALIGNED, LOAD_ACCESS = 4, 5
STORE_MISALIGNED, STORE_ACCESS = 6, 7
ECALL_FROM_USER = 8
FETCH_PAGE, LOAD_PAGE, STORE_PAGE = 12, 13, 15


def wrap(value: int) -> int:
    """The low 64 bits of a whole number."""
    return value & ALL_ONES


def sign_extend(value: int, bits: int) -> int:
    """Reads the low `bits` bits as a signed number and gives it modulo 2^64."""
    value &= (1 << bits) - 1
    if value >> (bits - 1):
        value -= 1 << bits
    return value & ALL_ONES


def signed(value: int) -> int:
    """The signed reading of a 64-bit word."""
    return value - (1 << 64) if value & SIGN_BIT else value


def is_device(address: int) -> bool:
    """Whether one byte address belongs to a device."""
    return address < RAM_START


__all__ = [
    "ALL_ONES",
    "BREAKPOINT",
    "ECALL_FROM_USER",
    "FETCH_ACCESS",
    "FETCH_PAGE",
    "ILLEGAL",
    "INTERRUPT_CODES",
    "INTERRUPT_FLAG",
    "LINE_BYTES",
    "LOAD_ACCESS",
    "LOAD_MISALIGNED",
    "LOAD_PAGE",
    "MACHINE",
    "RAM_END",
    "RAM_START",
    "SIGN_BIT",
    "STORE_ACCESS",
    "STORE_MISALIGNED",
    "STORE_PAGE",
    "SUPERVISOR",
    "USER",
    "in_ram",
    "is_device",
    "line_of",
    "sign_extend",
    "signed",
    "wrap",
]
