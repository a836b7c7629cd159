"""The control and status registers: what reads give and what writes leave."""

USER, SUPERVISOR, MACHINE = 0, 1, 3
# The modes of satp.
BARE, SV39, SV48 = 0, 8, 9
ALL = (1 << 64) - 1
INTERRUPT_BIT = 1 << 63

SIE, MIE, SPIE, MPIE = 1, 3, 5, 7
SPP, MPP, MPRV, SUM, MXR, TVM, TW, TSR = 8, 11, 17, 18, 19, 20, 21, 22

# The kept registers in the order of a Csrs record: number, value after reset,
# bits that a write may change.
KEPT = {
    "mstatus": (0x300, 0x0000000A_00000000, 0x7E19AA),
    "medeleg": (0x302, 0, 0xB3FF),
    "mideleg": (0x303, 0, 0x222),
    "mie": (0x304, 0, 0xAAA),
    "mtvec": (0x305, 0, ALL & ~0b10),
    "mcounteren": (0x306, 0, 0b111),
    "mscratch": (0x340, 0, ALL),
    "mepc": (0x341, 0, ALL & ~0b1),
    "mcause": (0x342, 0, ALL),
    "mtval": (0x343, 0, ALL),
    "stvec": (0x105, 0, ALL & ~0b10),
    "scounteren": (0x106, 0, 0b111),
    "sscratch": (0x140, 0, ALL),
    "sepc": (0x141, 0, ALL & ~0b1),
    "scause": (0x142, 0, ALL),
    "stval": (0x143, 0, ALL),
    "satp": (0x180, 0, ALL),
}
NAME_OF_NUMBER = {number: name for name, (number, _, _) in KEPT.items()}
MISA, MISA_VALUE = 0x301, 0x8000000000141105
SSTATUS, SSTATUS_READS, SSTATUS_WRITES = 0x100, 0x2000C0122, 0xC0122
SIE_NUMBER, MIP, SIP, SATP = 0x104, 0x344, 0x144, 0x180
CONSTANTS = {0xF11: 0, 0xF12: 0, 0xF13: 0, 0xF15: 0}
HART_NUMBER = 0xF14
MIP_BITS = 1 << 1 | 1 << 3 | 1 << 5 | 1 << 7 | 1 << 9 | 1 << 11
SIP_BITS = 1 << 1 | 1 << 5 | 1 << 9
COUNTERS = {
    0xB00: "cycle",
    0xC00: "cycle",
    0xC01: "time",
    0xB02: "instret",
    0xC02: "instret",
}
EXISTING = {MISA, SSTATUS, SIE_NUMBER, MIP, SIP, HART_NUMBER}
EXISTING |= NAME_OF_NUMBER.keys() | COUNTERS.keys() | CONSTANTS.keys()
# The bit of mcounteren and scounteren that opens a counter below M.
OPENING_BIT = {0xC00: 0, 0xC01: 1, 0xC02: 2}


class ControlRegisters:
    """The kept registers of one hart and the floors of its counters."""

    def __init__(self, hart, is_wide):
        self.hart = hart
        self.translations = (BARE, SV39, SV48) if is_wide else (BARE, SV39)
        self.kept = {name: reset for name, (_, reset, _) in KEPT.items()}
        self.floors = {"cycle": 0, "time": 0, "instret": 0}

    def status(self, place, bits=1):
        """A field of mstatus."""
        return self.kept["mstatus"] >> place & (1 << bits) - 1

    def set_status(self, place, value, bits=1):
        """Changes a field of mstatus."""
        mask = ((1 << bits) - 1) << place
        self.kept["mstatus"] = self.kept["mstatus"] & ~mask | value << place

    def is_accessible(self, mode, number, writes):
        """Whether an access from this mode is legal."""
        if number not in EXISTING or (number >> 8 & 3) > mode:
            return False
        if writes and number >> 10 == 3:
            return False
        if number == SATP and mode == SUPERVISOR and self.status(TVM):
            return False
        if number in OPENING_BIT and mode < MACHINE:
            return self.counter_is_open(mode, OPENING_BIT[number])
        return True

    def counter_is_open(self, mode, bit):
        """Whether a mode below M may read the counter with this bit."""
        if not self.kept["mcounteren"] >> bit & 1:
            return False
        return mode == SUPERVISOR or bool(self.kept["scounteren"] >> bit & 1)

    def pending_bits(self, number):
        """The bits that a read of mip or sip may give, or None for others."""
        if number == MIP:
            return MIP_BITS
        if number == SIP:
            return SIP_BITS & self.kept["mideleg"]
        return None

    def read(self, number):
        """The value of a register that the reference knows."""
        if number in NAME_OF_NUMBER:
            return self.kept[NAME_OF_NUMBER[number]]
        if number == MISA:
            return MISA_VALUE
        if number == SSTATUS:
            return self.kept["mstatus"] & SSTATUS_READS
        if number == SIE_NUMBER:
            return self.kept["mie"] & self.kept["mideleg"]
        return self.hart if number == HART_NUMBER else CONSTANTS[number]

    def write(self, number, value):
        """Writes a register other than a counter, by its rule."""
        if number == SSTATUS:
            self.write_bits("mstatus", SSTATUS_WRITES, value)
        elif number == SIE_NUMBER:
            self.write_bits("mie", self.kept["mideleg"], value)
        elif number == SATP:
            if value >> 60 in self.translations:
                self.kept["satp"] = value
        elif number in NAME_OF_NUMBER:
            name = NAME_OF_NUMBER[number]
            mask = KEPT[name][2]
            if name == "mstatus" and value >> MPP & 3 == 2:
                mask &= ~(3 << MPP)
            self.write_bits(name, mask, value)

    def write_bits(self, name, mask, value):
        """Changes the bits of the mask and keeps the others."""
        self.kept[name] = self.kept[name] & ~mask | value & mask

    def enabled_interrupts(self, mode):
        """The mask of interrupt codes that may be taken."""
        mie, mideleg = self.kept["mie"], self.kept["mideleg"]
        to_machine = mode < MACHINE or self.status(MIE)
        to_supervisor = mode == USER or (mode == SUPERVISOR and self.status(SIE))
        mask = 0
        for code in (1, 3, 5, 7, 9, 11):
            is_open = to_supervisor if mideleg >> code & 1 else to_machine
            if mie >> code & 1 and is_open:
                mask |= 1 << code
        return mask

    def enter_trap(self, mode, pc, cause, tval):
        """Enters a trap; gives the new mode and pc."""
        is_interrupt = bool(cause & INTERRUPT_BIT)
        code = cause & ~INTERRUPT_BIT
        delegated = self.kept["mideleg" if is_interrupt else "medeleg"]
        if mode < MACHINE and delegated >> code & 1:
            letter, new_mode = "s", SUPERVISOR
            self.set_status(SPIE, self.status(SIE))
            self.set_status(SIE, 0)
            self.set_status(SPP, mode)
        else:
            letter, new_mode = "m", MACHINE
            self.set_status(MPIE, self.status(MIE))
            self.set_status(MIE, 0)
            self.set_status(MPP, mode, 2)
        self.kept[letter + "epc"] = pc
        self.kept[letter + "cause"] = cause
        self.kept[letter + "tval"] = tval
        vector = self.kept[letter + "tvec"]
        offset = 4 * code if is_interrupt and vector & 1 else 0
        return new_mode, ((vector & ~0b11) + offset) & ALL

    def return_from_machine(self):
        """MRET; gives the new mode and pc."""
        mode = self.status(MPP, 2)
        self.set_status(MIE, self.status(MPIE))
        self.set_status(MPIE, 1)
        self.set_status(MPP, USER, 2)
        if mode != MACHINE:
            self.set_status(MPRV, 0)
        return mode, self.kept["mepc"]

    def return_from_supervisor(self):
        """SRET; gives the new mode and pc."""
        mode = self.status(SPP)
        self.set_status(SIE, self.status(SPIE))
        self.set_status(SPIE, 1)
        self.set_status(SPP, USER)
        self.set_status(MPRV, 0)
        return mode, self.kept["sepc"]
