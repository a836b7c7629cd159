"""What the profile says of a hart's next instruction, before the machine has run it.

The values of arithmetic are left to difftest, which judges what was recorded: here stands what decides of
which kind a record is, and where QEMU is known to depart.
"""

from __future__ import annotations

from dataclasses import dataclass
from functools import lru_cache
from typing import Callable, List, Optional, Tuple, Union

from ..isa import csrs as control
from ..isa.compressed import meaning_of
from ..isa.decoding import Instruction
from ..isa.fields import (
    BREAKPOINT,
    ECALL_FROM_USER,
    ILLEGAL,
    LOAD_MISALIGNED,
    MACHINE,
    STORE_MISALIGNED,
    SUPERVISOR,
    wrap,
)
from ..isa.walking import FETCH, LOAD, STORE, cause_of, settle, view_of, walk
from ..records import RAM_START

ReadMemory = Callable[[int, int], int]
known_meaning = lru_cache(maxsize=65536)(meaning_of)
ACCESSES = ("load", "store", "atomic")


class HartState:
    """A hart between two instructions: the machine's registers, and the profile's registers of control."""

    def __init__(self, number: int) -> None:
        self.number = number
        self.pc = RAM_START
        self.x: Tuple[int, ...] = (0,) * 32
        self.mode = MACHINE
        self.csrs = control.Csrs()


@dataclass(frozen=True)
class Due:
    """A trap that the profile asks for."""

    cause: int
    tval: int


@dataclass(frozen=True)
class Expected:
    """What the next instruction of a hart is, and what becomes of it."""

    bits: int
    # None where the fetch failed, or where the bits have no meaning.
    instruction: Optional[Instruction] = None
    due: Optional[Due] = None
    # Of an access of memory, where nothing is due.
    paddr: int = 0
    # Where the hart may go on, where nothing is due.
    following: Tuple[int, ...] = ()

    @property
    def group(self) -> str:
        """The group of an instruction that retires, else nothing."""
        return self.instruction.group if self.instruction and not self.due else ""


def translate(state: HartState, read: ReadMemory, address: int, access: str) -> Union[str, int]:
    """The physical address, or a fault."""
    view = view_of(state.csrs, state.mode, access)
    return walk(lambda place: read(place, 8), address, access, view)


def fetch(state: HartState, read: ReadMemory) -> Tuple[int, Optional[Due]]:
    """The bits of the next instruction, or those before a fault with the fault."""
    bits = 0
    for part in (0, 1):
        address = wrap(state.pc + 2 * part)
        place = settle(translate(state, read, address, FETCH), True)
        if isinstance(place, str):
            return bits, Due(cause_of(place, FETCH), address)
        bits |= read(place, 2) << 16 * part
        if bits & 3 != 3:
            break
    return bits, None


def _is_csr_legal(state: HartState, i: Instruction) -> bool:
    reads = i.op != "write" or i.rd != 0
    writes = i.op == "write" or i.rs1 != 0
    if reads and state.csrs.read(state.mode, state.number, i.number) is None:
        return False
    return not writes or state.csrs.may_write(state.mode, i.number)


def _is_legal(state: HartState, i: Instruction) -> bool:
    """Whether the hart may run an instruction that has a meaning."""
    if i.group == "csr":
        return _is_csr_legal(state, i)
    if i.group == "mret":
        return state.mode == MACHINE
    barred = {"sret": control.TSR, "wfi": control.TW, "sfence": control.TVM}.get(i.group)
    if barred is None or state.mode == MACHINE:
        return True
    return state.mode == SUPERVISOR and not state.csrs["mstatus"] & barred


def address_of(state: HartState, i: Instruction) -> int:
    """The virtual address of an access."""
    return wrap(state.x[i.rs1] + i.imm)


def raised(state: HartState, bits: int, i: Optional[Instruction]) -> Optional[Due]:
    """The trap that an instruction raises by itself."""
    if i is None or not _is_legal(state, i):
        return Due(ILLEGAL, bits)
    if i.group == "ecall":
        return Due(ECALL_FROM_USER + state.mode, 0)
    if i.group == "ebreak":
        return Due(BREAKPOINT, state.pc)
    if i.group in ACCESSES and address_of(state, i) % i.width:
        reads = i.group == "load" or i.op == "lr"
        return Due(LOAD_MISALIGNED if reads else STORE_MISALIGNED, address_of(state, i))
    return None


def _placed(state: HartState, read: ReadMemory, i: Instruction) -> Union[Due, int]:
    """The physical address of an access, or the fault of it."""
    access = LOAD if i.group == "load" or i.op == "lr" else STORE
    address = address_of(state, i)
    place = settle(translate(state, read, address, access), i.group == "atomic")
    return Due(cause_of(place, access), address) if isinstance(place, str) else place


def following_of(state: HartState, i: Instruction, length: int) -> Tuple[int, ...]:
    """Where a hart may go on behind an instruction that retires."""
    behind = wrap(state.pc + length)
    if i.group == "jal":
        return (wrap(state.pc + i.imm),)
    if i.group == "jalr":
        return (wrap(state.x[i.rs1] + i.imm) & ~1,)
    if i.group == "branch":
        return (behind, wrap(state.pc + i.imm))
    if i.group in ("mret", "sret"):
        return (state.csrs["mepc" if i.group == "mret" else "sepc"],)
    return (behind,)


def expect(state: HartState, read: ReadMemory) -> Expected:
    """What the profile says of the next instruction."""
    bits, fault = fetch(state, read)
    if fault:
        return Expected(bits, due=fault)
    i = known_meaning(bits)
    due = raised(state, bits, i)
    if i is None or due:
        return Expected(bits, i, due)
    paddr = 0
    if i.group in ACCESSES:
        place = _placed(state, read, i)
        if isinstance(place, Due):
            return Expected(bits, i, place)
        paddr = place
    return Expected(bits, i, None, paddr, following_of(state, i, 4 if bits & 3 == 3 else 2))


def vectors(state: HartState) -> List[int]:
    """Where an exception may lead."""
    return [state.csrs[name] & ~3 for name in ("mtvec", "stvec")]
