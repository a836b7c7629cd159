"""Which records are lawful: the bounds of their fields, each with the words that say it."""

from __future__ import annotations

from functools import lru_cache
from typing import Any, Callable, Dict, List, NamedTuple, Tuple, Type, Union

from .records import (
    LINE_BYTES,
    MOST_HARTS,
    RAM_END,
    RAM_START,
    Atomic,
    Commit,
    Csrs,
    Drain,
    Load,
    Record,
    Refill,
    Regs,
    Store,
    Trap,
    in_ram,
)

REGISTERS, CONTROL_REGISTERS = 31, 17


class Problem(NamedTuple):
    """A field that breaks a bound. The value of `content` is that of the first wrong byte."""

    field: str
    value: int
    bound: str

    def __str__(self) -> str:
        return f"{self.field}={self.value:#x} is not {self.bound}"


def _bits_problems(bits: int) -> List[Problem]:
    if bits & 3 == 3 or bits < 1 << 16:
        return []
    return [Problem("bits", bits, "below 10000 (hexadecimal), as its low two bits are not 11")]


def _retired_problems(record: Union[Commit, Store]) -> List[Problem]:
    bits = record.bits
    return [] if bits & 3 == 3 or bits < 1 << 16 else _bits_problems(bits)


def _load_problems(record: Load) -> List[Problem]:
    found = _bits_problems(record.bits)
    if record.at > record.stamp:
        found.append(Problem("at", record.at, f"at most the stamp, {record.stamp}"))
    return found


def _trap_problems(record: Trap) -> List[Problem]:
    if record.is_interrupt:
        if record.bits:
            bound = f"that of a trap with the bits {record.bits:08x}: an interrupt has bits 0"
            return [Problem("cause", record.cause, bound)]
        return []
    return [] if record.cause in (1, 12) else _bits_problems(record.bits)


def _csrs_problems(record: Csrs) -> List[Problem]:
    if record.mode in (0, 1, 3):
        return []
    return [Problem("mode", record.mode, "0, 1 or 3")]


def _atomic_problems(record: Atomic) -> List[Problem]:
    found = _bits_problems(record.bits)
    if record.width not in (4, 8):
        found.append(Problem("width", record.width, "4 or 8"))
    elif record.paddr % record.width or not in_ram(record.paddr, record.width):
        found.append(Problem("paddr", record.paddr, f"a multiple of {record.width} in RAM"))
    if record.wrote not in (0, 1):
        found.append(Problem("wrote", record.wrote, "0 or 1"))
    elif not record.wrote and record.new:
        found.append(Problem("new", record.new, "0, as nothing was written"))
    if record.width == 4 and record.new >> 32:
        found.append(Problem("new", record.new, "below 2^32, as the width is 4"))
    return found


def _line_problems(line: int) -> List[Problem]:
    if line % LINE_BYTES == 0 and RAM_START <= line < RAM_END:
        return []
    return [Problem("line", line, "a multiple of 64 in RAM (a store to a device has no Drain)")]


@lru_cache(maxsize=4096)
def _covered(mask: int) -> int:
    """The bits of a line's number that the mask covers."""
    return sum(0xFF << 8 * place for place in range(LINE_BYTES) if mask >> place & 1)


def _drain_problems(record: Drain) -> List[Problem]:
    found = _line_problems(record.line)
    if record.mask == 0:
        found.append(Problem("mask", 0, "above 0"))
    if record.count == 0:
        found.append(Problem("count", 0, "above 0"))
    outside = int.from_bytes(record.content, "little") & ~_covered(record.mask)
    if outside:
        place = ((outside & -outside).bit_length() - 1) // 8
        bound = f"0, as bit {place} of the mask is clear"
        found.append(Problem(f"bytes[{place}]", record.content[place], bound))
    return found


def _refill_problems(record: Refill) -> List[Problem]:
    return _line_problems(record.line)


def _no_problems(_record: Record) -> List[Problem]:
    return []


# By tag: the bounds of its kind that a record breaks whose numbers fit into their bytes.
BOUND_PROBLEMS: Dict[int, Callable[[Any], List[Problem]]] = {
    1: _retired_problems,
    2: _trap_problems,
    3: _no_problems,
    4: _csrs_problems,
    5: _load_problems,
    6: _retired_problems,
    7: _atomic_problems,
    8: _drain_problems,
    9: _refill_problems,
    10: _no_problems,
}


_LENGTHS: Dict[Type[Record], Tuple[str, int]] = {
    Regs: ("x", REGISTERS),
    Csrs: ("v", CONTROL_REGISTERS),
    Drain: ("content", LINE_BYTES),
    Refill: ("content", LINE_BYTES),
}


def _size_problems(record: Record) -> List[Problem]:
    """The fields that do not fit into their bytes of the file."""
    found = []
    if not 0 <= record.hart < MOST_HARTS:
        found.append(Problem("hart", record.hart, f"below {MOST_HARTS}"))
    if not 0 <= record.stamp < 1 << 64:
        found.append(Problem("stamp", record.stamp, "a number of 8 bytes"))
    name, length = _LENGTHS.get(type(record), ("", 0))
    if length and len(getattr(record, name)) != length:
        found.append(Problem(name, len(getattr(record, name)), f"of length {length}"))
        return found
    for (name, size), value in zip(record.numbers, record.values()):
        if not 0 <= value < 1 << 8 * size:
            found.append(Problem(name, value, f"a number of {size} bytes"))
    return found


def problems(record: Record) -> Tuple[Problem, ...]:
    """Every bound that the record breaks; none where it is lawful in a file of 8 harts."""
    return tuple(_size_problems(record) or BOUND_PROBLEMS[record.tag](record))
