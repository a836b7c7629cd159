"""Address translation and instruction fetch over moments of memory.

An outcome is the physical address, or one of the two kinds of fault.
"""

from dataclasses import dataclass

from .arithmetic import sign_extend
from .csrs import MACHINE, MPP, MPRV, MXR, SUM, SUPERVISOR, SV39, SV48, USER
from .records import in_ram, is_device

PAGE_FAULT = "page fault"
ACCESS_FAULT = "access fault"
FETCH, LOAD, STORE = "fetch", "load", "store"
PAGE_SHIFT = 12
LEVELS = {SV39: 3, SV48: 4}

VALID, READABLE, WRITABLE, EXECUTABLE, FOR_USER = 1, 2, 4, 8, 16
ACCESSED, DIRTY = 64, 128


@dataclass(frozen=True)
class Request:
    """An address to translate, with what the walk depends on beside memory.

    Without translation there are no levels.
    """

    address: int
    access: str
    ram_only: bool
    levels: int
    root: int
    mode: int
    may_use_user_pages: bool
    may_load_executable: bool


def request_of(arch, address, access, ram_only):
    """The request of a hart; data accesses may borrow an earlier mode."""
    csrs = arch.csrs
    mode = arch.mode
    if access != FETCH and mode == MACHINE and csrs.status(MPRV):
        mode = csrs.status(MPP, 2)
    satp = csrs.kept["satp"]
    return Request(
        address,
        access,
        ram_only,
        LEVELS.get(satp >> 60, 0) if mode < MACHINE else 0,
        (satp & (1 << 44) - 1) << PAGE_SHIFT,
        mode,
        bool(csrs.status(SUM)),
        bool(csrs.status(MXR)),
    )


def outcome(memory, moment, request):
    """What a moment gives: an address that the access may use, or a fault."""
    found = walk(memory, moment, request) if request.levels else request.address
    if found in (PAGE_FAULT, ACCESS_FAULT):
        return found
    if in_ram(found) or (is_device(found) and not request.ram_only):
        return found
    return ACCESS_FAULT


def walk(memory, moment, request):
    """Goes down the page table as it stands at a moment."""
    address = request.address
    if sign_extend(address, PAGE_SHIFT + 9 * request.levels) != address:
        return PAGE_FAULT
    table = request.root
    for level in reversed(range(request.levels)):
        index = address >> PAGE_SHIFT + 9 * level & 0x1FF
        if not in_ram(table + 8 * index, 8):
            return ACCESS_FAULT
        entry = memory.number(moment, table + 8 * index, 8)
        if not is_well_formed(entry):
            return PAGE_FAULT
        if entry & (READABLE | EXECUTABLE):
            return leaf_outcome(entry, level, request)
        if level == 0 or entry & (ACCESSED | DIRTY | FOR_USER):
            return PAGE_FAULT
        table = page_number(entry) << PAGE_SHIFT
    raise AssertionError("the last level gives a leaf or a fault")


def page_number(entry):
    """The physical page number in a table entry."""
    return entry >> 10 & (1 << 44) - 1


def is_well_formed(entry):
    """Whether an entry is valid, without reserved bits or write-only pages."""
    if not entry & VALID or entry >> 54:
        return False
    return bool(entry & READABLE) or not entry & WRITABLE


def leaf_outcome(entry, level, request):
    """The address that a leaf gives, or a page fault."""
    offset_bits = PAGE_SHIFT + 9 * level
    page = page_number(entry)
    if page & (1 << 9 * level) - 1:
        return PAGE_FAULT
    if not entry & ACCESSED or (request.access == STORE and not entry & DIRTY):
        return PAGE_FAULT
    if not is_permitted(entry, request):
        return PAGE_FAULT
    return page << PAGE_SHIFT | request.address & (1 << offset_bits) - 1


def is_permitted(entry, request):
    """Whether a leaf lets this mode make this access."""
    if request.mode == USER and not entry & FOR_USER:
        return False
    if request.mode == SUPERVISOR and entry & FOR_USER:
        if request.access == FETCH or not request.may_use_user_pages:
            return False
    if request.access == FETCH:
        return bool(entry & EXECUTABLE)
    if request.access == STORE:
        return bool(entry & WRITABLE)
    if request.may_load_executable and entry & EXECUTABLE:
        return True
    return bool(entry & READABLE)


def newest_with(memory, window, request, wanted):
    """The newest moment of a window with this outcome, or None."""
    first, last = window
    for moment in range(last, first - 1, -1):
        if outcome(memory, moment, request) == wanted:
            return moment
    return None


def newest_fetch(memory, window, since, request, half):
    """The chosen moments of translation and of content of a halfword, or None."""
    first, last = window
    hopeless = set()
    for moment in range(last, first - 1, -1):
        address = outcome(memory, moment, request)
        if address in (PAGE_FAULT, ACCESS_FAULT) or address in hopeless:
            continue
        content = newest_content(memory, since, address, half)
        if content is not None:
            return moment, content
        hopeless.add(address)
    return None


def newest_content(memory, since, address, half):
    """The newest moment of a span at which memory holds the halfword, or None."""
    first, last = since
    for moment in range(last, first - 1, -1):
        if memory.number(moment, address, 2) == half:
            return moment
    return None
