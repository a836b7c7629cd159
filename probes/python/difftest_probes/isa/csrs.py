"""Control registers of one hart, trap entry and return."""

from __future__ import annotations

from typing import Dict, List, Optional, Tuple

from ..records import CSR_NAMES as KEPT
from .fields import ALL_ONES, INTERRUPT_CODES, INTERRUPT_FLAG, MACHINE, SUPERVISOR, USER

NUMBERS = {
    0x300: "mstatus",
    0x302: "medeleg",
    0x303: "mideleg",
    0x304: "mie",
    0x305: "mtvec",
    0x306: "mcounteren",
    0x340: "mscratch",
    0x341: "mepc",
    0x342: "mcause",
    0x343: "mtval",
    0x105: "stvec",
    0x106: "scounteren",
    0x140: "sscratch",
    0x141: "sepc",
    0x142: "scause",
    0x143: "stval",
    0x180: "satp",
}
MSTATUS_MASK = 0x7E19AA
MASKS = {
    "medeleg": 0xB3FF,
    "mideleg": 0x222,
    "mie": 0xAAA,
    "mtvec": ALL_ONES ^ 2,
    "stvec": ALL_ONES ^ 2,
    "mcounteren": 7,
    "scounteren": 7,
    "mepc": ALL_ONES ^ 1,
    "sepc": ALL_ONES ^ 1,
}
FIXED_VALUES = {0x301: 0x8000000000141105, 0xF11: 0, 0xF12: 0, 0xF13: 0, 0xF15: 0}
MHARTID = 0xF14
SSTATUS, SIE, SIP, MIP, SATP = 0x100, 0x104, 0x144, 0x344, 0x180
SSTATUS_READ, SSTATUS_WRITE = 0x2000C0122, 0xC0122
CYCLE, TIME, INSTRET = 0, 1, 2
COUNTERS = {0xB00: CYCLE, 0xB02: INSTRET, 0xC00: CYCLE, 0xC01: TIME, 0xC02: INSTRET}
ALL_NUMBERS = tuple(sorted({*NUMBERS, *FIXED_VALUES, *COUNTERS, MHARTID, SSTATUS, SIE, SIP, MIP}))
PENDING_BITS = sum(1 << code for code in INTERRUPT_CODES)
SUPERVISOR_PENDING = 0x222

SIE_BIT, MIE_BIT, SPIE_BIT, MPIE_BIT, SPP_BIT = 1 << 1, 1 << 3, 1 << 5, 1 << 7, 1 << 8
MPP_SHIFT = 11
MPRV, SUM, MXR, TVM, TW, TSR = (1 << n for n in range(17, 23))


class Csrs:
    """The kept control registers and the floors of the three counters.

    In a wide file satp may have the mode of Sv48 too.
    """

    def __init__(self, wide: bool = False) -> None:
        self.modes = (0, 8, 9) if wide else (0, 8)
        self.kept: Dict[str, int] = dict.fromkeys(KEPT, 0)
        self.kept["mstatus"] = 0xA00000000
        self.floors = [0, 0, 0]

    def __getitem__(self, name: str) -> int:
        return self.kept[name]

    def values(self) -> List[int]:
        """The kept values in the order of a record of them."""
        return [self.kept[name] for name in KEPT]

    @property
    def previous_mode(self) -> int:
        """The mode that a return from machine mode goes to."""
        return self.kept["mstatus"] >> MPP_SHIFT & 3

    def _reachable(self, mode: int, number: int) -> bool:
        known = number in ALL_NUMBERS and number >> 8 & 3 <= mode
        if number == SATP and mode == SUPERVISOR and self.kept["mstatus"] & TVM:
            return False
        return known

    def read(self, mode: int, hart: int, number: int) -> Optional[Tuple[str, int]]:
        """A pair of a sort and a value, or None where reading is illegal."""
        if not self._reachable(mode, number):
            return None
        if number in COUNTERS:
            bit = 1 << (number & 3)
            if number >> 8 == 0xC and mode < MACHINE:
                if not self.kept["mcounteren"] & bit:
                    return None
                if mode == USER and not self.kept["scounteren"] & bit:
                    return None
            return "counter", COUNTERS[number]
        if number == MIP:
            return "pending", PENDING_BITS
        if number == SIP:
            return "pending", SUPERVISOR_PENDING & self.kept["mideleg"]
        return "value", self._plain(hart, number)

    def _plain(self, hart: int, number: int) -> int:
        if number == MHARTID:
            return hart
        if number in FIXED_VALUES:
            return FIXED_VALUES[number]
        if number == SSTATUS:
            return self.kept["mstatus"] & SSTATUS_READ
        if number == SIE:
            return self.kept["mie"] & self.kept["mideleg"]
        return self.kept[NUMBERS[number]]

    def may_write(self, mode: int, number: int) -> bool:
        """Whether a write is legal."""
        return self._reachable(mode, number) and number >> 10 != 3

    def write(self, number: int, value: int) -> None:
        """Does a legal write."""
        if number in COUNTERS:
            self.floors[COUNTERS[number]] = value
        elif number == 0x300:
            mask = MSTATUS_MASK
            if value >> MPP_SHIFT & 3 == 2:
                mask &= ~(3 << MPP_SHIFT)
            self._merge("mstatus", mask, value)
        elif number == SSTATUS:
            self._merge("mstatus", SSTATUS_WRITE, value)
        elif number == SIE:
            self._merge("mie", self.kept["mideleg"], value)
        elif number == SATP:
            if value >> 60 in self.modes:
                self.kept["satp"] = value
        elif number in NUMBERS:
            name = NUMBERS[number]
            self.kept[name] = value & MASKS.get(name, ALL_ONES)

    def _merge(self, name: str, mask: int, value: int) -> None:
        self.kept[name] = self.kept[name] & ~mask | value & mask

    def enabled_interrupts(self, mode: int) -> int:
        """The mask of interrupt codes that may be taken in this mode."""
        mie, mideleg, mstatus = self.kept["mie"], self.kept["mideleg"], self.kept["mstatus"]
        answer = 0
        if mode < MACHINE or mstatus & MIE_BIT:
            answer |= mie & ~mideleg
        if mode == USER or mode == SUPERVISOR and mstatus & SIE_BIT:
            answer |= mie & mideleg
        return answer & PENDING_BITS

    def enter_trap(self, mode: int, pc: int, cause: int, tval: int) -> Tuple[int, int]:
        """Enters a trap; gives the new mode and pc."""
        code = cause & 63
        interrupt = bool(cause & INTERRUPT_FLAG)
        delegated = self.kept["mideleg" if interrupt else "medeleg"] >> code & 1
        status = self.kept["mstatus"]
        if mode < MACHINE and delegated:
            letter, new_mode = "s", SUPERVISOR
            enable, previous = SIE_BIT, SPIE_BIT
            status = status & ~SPP_BIT | (SPP_BIT if mode else 0)
        else:
            letter, new_mode = "m", MACHINE
            enable, previous = MIE_BIT, MPIE_BIT
            status = status & ~(3 << MPP_SHIFT) | mode << MPP_SHIFT
        status = status & ~previous | (previous if status & enable else 0)
        self.kept["mstatus"] = status & ~enable
        self.kept[letter + "epc"] = pc & (ALL_ONES ^ 1)
        self.kept[letter + "cause"] = cause
        self.kept[letter + "tval"] = tval
        vector = self.kept[letter + "tvec"]
        target = vector & ~3
        if interrupt and vector & 1:
            target += 4 * code
        return new_mode, target & ALL_ONES

    def leave_machine(self) -> Tuple[int, int]:
        """MRET; gives the new mode and pc."""
        status = self.kept["mstatus"]
        mode = self.previous_mode
        status = status & ~MIE_BIT | (MIE_BIT if status & MPIE_BIT else 0)
        status = (status | MPIE_BIT) & ~(3 << MPP_SHIFT)
        if mode != MACHINE:
            status &= ~MPRV
        self.kept["mstatus"] = status
        return mode, self.kept["mepc"]

    def leave_supervisor(self) -> Tuple[int, int]:
        """SRET; gives the new mode and pc."""
        status = self.kept["mstatus"]
        mode = SUPERVISOR if status & SPP_BIT else USER
        status = status & ~SIE_BIT | (SIE_BIT if status & SPIE_BIT else 0)
        self.kept["mstatus"] = (status | SPIE_BIT) & ~SPP_BIT & ~MPRV
        return mode, self.kept["sepc"]
