"""Page walks of three and four levels, and the kinds of memory access."""

from __future__ import annotations

from dataclasses import dataclass
from typing import Callable, Tuple, Union

from . import csrs as control
from .fields import (
    FETCH_ACCESS,
    FETCH_PAGE,
    LOAD_ACCESS,
    LOAD_PAGE,
    MACHINE,
    STORE_ACCESS,
    STORE_PAGE,
    USER,
    in_ram,
    is_device,
)

PAGE_FAULT, ACCESS_FAULT = "page fault", "access fault"
FETCH, LOAD, STORE = "fetch", "load", "store"

V, R, W, X, U, G, A, D = (1 << n for n in range(8))

# How many levels a walk has, by the mode of satp.
LEVELS = {8: 3, 9: 4}


@dataclass(frozen=True)
class View:
    """What of a hart's state decides a translation."""

    on: bool
    root: int
    mode: int
    sum: bool
    mxr: bool
    levels: int = 3


def view_of(csrs: control.Csrs, mode: int, access: str) -> View:
    """The view of a hart for one access."""
    effective = mode
    if access != FETCH and mode == MACHINE and csrs["mstatus"] & control.MPRV:
        effective = csrs.previous_mode
    satp = csrs["satp"]
    on = effective < MACHINE and satp >> 60 in LEVELS
    return View(
        on,
        (satp & ((1 << 44) - 1)) << 12,
        effective,
        bool(csrs["mstatus"] & control.SUM),
        bool(csrs["mstatus"] & control.MXR),
        LEVELS.get(satp >> 60, 3),
    )


def permitted(leaf: int, access: str, view: View) -> bool:
    """Whether a leaf's bits allow the access."""
    if not leaf & A or access == STORE and not leaf & D:
        return False
    if access == FETCH and not leaf & X:
        return False
    if access == LOAD and not (leaf & R or view.mxr and leaf & X):
        return False
    if access == STORE and not leaf & W:
        return False
    if view.mode == USER:
        return bool(leaf & U)
    if leaf & U:
        return access != FETCH and view.sum
    return True


def canonical(address: int, levels: int = 3) -> bool:
    """Whether the upper bits of an address repeat its bit 38, or 47 where there are four levels."""
    top = 11 + 9 * levels
    return address >> top in (0, (1 << (64 - top)) - 1)


def _broken(entry: int) -> bool:
    """Whether an entry is refused at any level."""
    return bool(not entry & V or entry & W and not entry & R or entry >> 54)


def find_leaf(
    read_entry: Callable[[int], int], address: int, root: int, levels: int = 3
) -> Union[str, Tuple[int, int]]:
    """The leaf of a walk as (entry, physical page address), or a fault."""
    if not canonical(address, levels):
        return PAGE_FAULT
    table = root
    for level in reversed(range(levels)):
        place = table + 8 * (address >> (12 + 9 * level) & 0x1FF)
        if not in_ram(place):
            return ACCESS_FAULT
        entry = read_entry(place)
        if _broken(entry):
            return PAGE_FAULT
        number = entry >> 10 & ((1 << 44) - 1)
        if entry & (R | X):
            low = (1 << 9 * level) - 1
            if number & low:
                return PAGE_FAULT
            return entry, (number | address >> 12 & low) << 12
        if level == 0 or entry & (A | D | U):
            return PAGE_FAULT
        table = number << 12
    return PAGE_FAULT


def walk(read_entry: Callable[[int], int], address: int, access: str, view: View) -> Union[str, int]:
    """A physical address or a fault."""
    if not view.on:
        return address
    found = find_leaf(read_entry, address, view.root, view.levels)
    if isinstance(found, str):
        return found
    entry, page = found
    return page | address & 0xFFF if permitted(entry, access, view) else PAGE_FAULT


def settle(answer: Union[str, int], ram_only: bool) -> Union[str, int]:
    """A walk's answer with addresses that the access may not have as access faults."""
    if isinstance(answer, str):
        return answer
    if in_ram(answer) or not ram_only and is_device(answer):
        return answer
    return ACCESS_FAULT


def cause_of(fault: str, access: str) -> int:
    """The trap cause of a fault."""
    page = {FETCH: FETCH_PAGE, LOAD: LOAD_PAGE, STORE: STORE_PAGE}
    plain = {FETCH: FETCH_ACCESS, LOAD: LOAD_ACCESS, STORE: STORE_ACCESS}
    return (page if fault == PAGE_FAULT else plain)[access]
