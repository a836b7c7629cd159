"""What a hart's records say of its state: the mode, the registers and the registers of control.

It follows the records and judges nothing: in a run that fails, what stands behind the failing record may
be wrong. What a record does not show (a counter that was written, pending bits) is not kept.
"""

from __future__ import annotations

from typing import Optional

from .isa.compressed import meaning_of
from .isa.csrs import Csrs as ControlRegisters
from .isa.decoding import Instruction
from .isa.fields import MACHINE
from .isa.walking import FETCH, LOAD, STORE, View, view_of
from .records import Atomic, Commit, Csrs, Load, Record, Regs, Store, Trap


class ShadowHart:
    """The state of one hart behind the records that it took."""

    def __init__(self, hart: int, wide: bool = False) -> None:
        self.hart = hart
        self.mode = MACHINE
        self.x = [0] * 32
        self.csrs = ControlRegisters(wide)

    def fetch_view(self) -> View:
        """How the next instruction's address is translated."""
        return view_of(self.csrs, self.mode, FETCH)

    def access_view(self, is_load: bool) -> View:
        """How the address of the next load or store is translated."""
        return view_of(self.csrs, self.mode, LOAD if is_load else STORE)

    def take(self, record: Record) -> None:
        """Goes on by a record."""
        if isinstance(record, Trap):
            self.mode, _ = self.csrs.enter_trap(self.mode, record.pc, record.cause, record.tval)
        elif isinstance(record, (Commit, Load, Atomic, Store)):
            instruction = meaning_of(record.bits)
            if instruction is not None:
                self._retire(record, instruction)
        elif isinstance(record, Regs):
            self.x = [0, *record.x]
        elif isinstance(record, Csrs):
            self.mode = record.mode
            self.csrs.kept.update(zip(self.csrs.kept, record.v))

    def _retire(self, record: Record, instruction: Instruction) -> None:
        value: Optional[int] = None
        if isinstance(record, (Commit, Load, Atomic)):
            value = record.value
        if instruction.group == "csr" and value is not None:
            self._write_register(instruction, value)
        elif instruction.group == "mret":
            self.mode, _ = self.csrs.leave_machine()
        elif instruction.group == "sret":
            self.mode, _ = self.csrs.leave_supervisor()
        if instruction.rd and value is not None:
            self.x[instruction.rd] = value

    def _write_register(self, instruction: Instruction, shown: int) -> None:
        """The write of a CSR instruction; without a register to read into, the old value is the kept one."""
        if instruction.op != "write" and not instruction.rs1:
            return
        if not self.csrs.may_write(self.mode, instruction.number):
            return
        operand = instruction.rs1 if instruction.word else self.x[instruction.rs1]
        old = shown
        if not instruction.rd:
            kept = self.csrs.read(self.mode, self.hart, instruction.number)
            old = kept[1] if kept and kept[0] == "value" else 0
        new = {"write": operand, "set": old | operand, "clear": old & ~operand}[instruction.op]
        self.csrs.write(instruction.number, new)
