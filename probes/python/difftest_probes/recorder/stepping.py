"""From the steps of harts to their records.

Each step of a hart is one cycle of the recording, and has an even stamp; drains that have to come before it
have the odd one below. What QEMU did is compared with what the profile says, as far as `expected` knows it.
"""

from __future__ import annotations

from typing import Callable, List, Optional, Tuple

from ..isa import csrs as control
from ..isa.decoding import Instruction
from ..isa.fields import LINE_BYTES, SUPERVISOR, sign_extend
from ..profile import register_name
from ..records import (
    CSR_NAMES,
    Atomic,
    Commit,
    Csrs,
    Load,
    Record,
    Regs,
    Store,
    Trap,
    in_ram,
    line_of,
)
from .buffers import StoreBuffer
from .departure import Departure
from .expected import ACCESSES, Due, Expected, HartState, expect, vectors
from .machine import HartRegisters, Machine, Memory


class Hart(HartState):
    """A hart that is recorded."""

    def __init__(self, number: int) -> None:
        super().__init__(number)
        self.buffer = StoreBuffer(number)
        # It stands at a WFI, and no interrupt will wake it.
        self.waits = False
        self.retired = 0
        # The reservation of the profile: a line, until another hart writes there.
        self.reserved: Optional[int] = None
        # What the last LR read: QEMU lets an SC succeed where this stands in memory again.
        self.linked = 0

    def departure(self, what: str) -> Departure:
        """That QEMU did something else at the hart's pc."""
        return Departure(self.number, self.pc, what)


class Recorder:
    """Steps the harts of a machine, and hands on their records."""

    def __init__(
        self, machine: Machine, harts: int, put: Callable[[Record], None], *, is_late: bool, snapshots: int
    ) -> None:
        self._machine = machine
        self._memory = Memory(machine)
        self._put = put
        self._is_late = is_late
        self._snapshots = snapshots
        self.harts = [Hart(number) for number in range(harts)]
        self.stamp = 0
        # Values that no observation shows: loads of devices into x0.
        self.unseen = 0
        # SCs without a reservation that QEMU would have let succeed.
        self.made_to_fail = 0

    def begin(self) -> None:
        """Takes the harts' state as it is, which has to be that of the profile's reset."""
        for hart in self.harts:
            found = self._machine.registers(hart.number)
            if (found.x, found.pc) != (hart.x, hart.pc):
                raise hart.departure("the hart does not begin at 80000000 with x1 to x31 0")
            self._compare_control(hart)

    def step(self, hart: Hart) -> Optional[Record]:
        """Steps a hart, and gives the record of its instruction; none where the hart waits."""
        self._memory.looked_at.clear()
        expected = expect(hart, self._memory.read)
        if expected.group == "wfi":
            hart.waits = True
            return None
        self.stamp += 2
        accessed = _line_of_access(expected)
        if accessed is not None:
            # Before the step: what a load or an atomic reads is compared with it.
            self._memory.line(accessed)
        self._make_way(hart, expected, accessed)
        writes = expected.group in ("store", "atomic")
        kept = self._disturb(hart, expected)
        found, after = self._machine.step(hart.number, accessed if writes else None)
        if kept:
            after = self._put_back(expected.paddr, kept, after)
        if self._has_trapped(hart, expected, found.pc):
            record: Record = self._trap(hart, expected, found.pc)
        else:
            record = self._retire(hart, expected, found, after)
        hart.x, hart.pc = found
        return record

    def _disturb(self, hart: Hart, expected: Expected) -> bytes:
        """Before an SC without a reservation: puts another value there for the step, so that QEMU's SC fails.

        QEMU asks only whether memory has the value that the LR read, so another hart's write that brought
        it back would let the SC succeed. Gives the bytes to put back, none where QEMU fails it anyway.
        """
        i = expected.instruction
        if expected.group != "atomic" or i is None or i.op != "sc":
            return b""
        value = self._memory.read(expected.paddr, i.width)
        mask = (1 << 8 * i.width) - 1
        if hart.reserved == line_of(expected.paddr) or value != hart.linked & mask:
            return b""
        self.made_to_fail += 1
        self._machine.write(expected.paddr, (value ^ mask).to_bytes(i.width, "little"))
        return value.to_bytes(i.width, "little")

    def _put_back(self, place: int, kept: bytes, after: bytes) -> bytes:
        """Puts the value back, unless the SC has written all the same; gives the line as it then is."""
        start = place % LINE_BYTES
        if after[start : start + len(kept)] != bytes(byte ^ 0xFF for byte in kept):
            return after
        self._machine.write(place, kept)
        return self._machine.lines([line_of(place)])[0]

    def _make_way(self, hart: Hart, expected: Expected, accessed: Optional[int]) -> None:
        """Drains what the step looks at, and what it waits for."""
        lines = list(self._memory.looked_at)
        for other in self.harts:
            theirs = lines
            if accessed is not None and (other is not hart or expected.group == "atomic"):
                theirs = [*lines, accessed]
            for line in theirs:
                self._drain(other, line, self.stamp - 1)
        if _waits_for_all(expected):
            self.drain_all(hart, self.stamp - 1)

    def _drain(self, hart: Hart, line: int, stamp: int) -> None:
        if hart.buffer.has(line):
            for drain in hart.buffer.drain(line, stamp):
                self._put(drain)
            self._written(hart, line)

    def drain_all(self, hart: Hart, stamp: int) -> None:
        """Drains all stores of a hart."""
        for line in hart.buffer.oldest():
            self._drain(hart, line, stamp)

    def drain_oldest(self, hart: Hart) -> None:
        """Drains the oldest line of a hart, in a cycle of its own."""
        self.stamp += 2
        for line in hart.buffer.oldest()[:1]:
            self._drain(hart, line, self.stamp)

    def _written(self, hart: Hart, line: int) -> None:
        """A write ends the other harts' reservations of its line."""
        for other in self.harts:
            if other is not hart and other.reserved == line:
                other.reserved = None

    def _has_trapped(self, hart: Hart, expected: Expected, pc: int) -> bool:
        """Whether the hart took a trap, by where it now is."""
        if expected.due and pc in vectors(hart):
            return True
        if expected.due:
            what = f"QEMU goes on at {pc:x}; the profile has a trap of cause {expected.due.cause}"
            raise hart.departure(what + _known(expected))
        if pc in expected.following:
            return False
        if pc in vectors(hart):
            return True
        where = " or ".join(f"{place:x}" for place in expected.following)
        raise hart.departure(f"QEMU goes on at {pc:x}; the profile goes on at {where}")

    def _trap(self, hart: Hart, expected: Expected, pc: int) -> Trap:
        """The record of a trap, from the registers of control that it wrote."""
        found = self._machine.control(hart.number)
        shown = dict(zip(CSR_NAMES, found.values))
        letter = "s" if found.mode == SUPERVISOR else "m"
        cause, tval = shown[letter + "cause"], shown[letter + "tval"]
        due = expected.due
        if due is None or due.cause != cause:
            wanted = f"one of cause {due.cause}" if due else "none"
            raise hart.departure(f"QEMU takes a trap of cause {cause}; the profile has {wanted}")
        if tval not in (0, due.tval):
            name = letter + "tval"
            raise hart.departure(f"QEMU puts {tval:x} into {name}; the profile has {due.tval:x} or 0 there")
        record = Trap(hart.number, self.stamp, hart.pc, expected.bits, cause, tval)
        hart.mode, handler = hart.csrs.enter_trap(hart.mode, hart.pc, cause, tval)
        self._compare_control(hart)
        if pc != handler:
            raise hart.departure(f"QEMU goes on at {pc:x}; the profile's handler is at {handler:x}")
        self._put(record)
        return record

    def _compare_control(self, hart: Hart) -> None:
        """The machine's registers of control have to be those of the profile."""
        found = self._machine.control(hart.number)
        if found.mode != hart.mode:
            raise hart.departure(f"QEMU's mode is then {found.mode}; the profile's is {hart.mode}")
        for name, shown, kept in zip(CSR_NAMES, found.values, hart.csrs.values()):
            if shown != kept:
                raise hart.departure(f"QEMU's {name} is then {shown:x}; the profile's is {kept:x}")

    def _retire(self, hart: Hart, expected: Expected, found: HartRegisters, after: bytes) -> Record:
        """The record of an instruction that retired."""
        i = expected.instruction
        assert i is not None
        if i.group == "load":
            record: Record = self._load(hart, expected, i, found)
        elif i.group == "store":
            record = self._store(hart, expected, i, after)
        elif i.group == "atomic":
            record = self._atomic(hart, expected, i, found, after)
        else:
            value = found.x[i.rd] if i.rd else 0
            record = Commit(hart.number, self.stamp, hart.pc, expected.bits, value)
        if i.group in ("csr", "mret", "sret"):
            self._control(hart, i, found)
        self._put(record)
        if i.group == "store" and in_ram(expected.paddr):
            self._buffer(hart, expected.paddr, i.width)
        if isinstance(record, Atomic) and record.wrote:
            self._written(hart, line_of(record.paddr))
        self._snapshot(hart, found)
        return record

    def _load(self, hart: Hart, expected: Expected, i: Instruction, found: HartRegisters) -> Load:
        place = expected.paddr
        value = found.x[i.rd] if i.rd else 0
        if in_ram(place):
            wanted = _extended(self._memory.read(place, i.width), i)
            if i.rd and value != wanted:
                raise hart.departure(_elsewhere(f"reads {value:x}", place, wanted))
            value = wanted
        elif value != _extended(value & ((1 << 8 * i.width) - 1), i):
            raise hart.departure(f"QEMU reads {value:x} from a device; that is more than {i.width} bytes")
        self.unseen += not i.rd and not in_ram(place)
        return Load(hart.number, self.stamp, hart.pc, expected.bits, value, self.stamp, place)

    def _store(self, hart: Hart, expected: Expected, i: Instruction, after: bytes) -> Store:
        place = expected.paddr
        value = hart.x[i.rs2] & ((1 << 8 * i.width) - 1)
        if in_ram(place):
            stored = self._behind(place, i.width, after)
            if stored != value:
                raise hart.departure(_elsewhere(f"stores {value:x}", place, stored))
        return Store(hart.number, self.stamp, hart.pc, expected.bits, place, value)

    def _behind(self, place: int, width: int, after: bytes) -> int:
        """What stands at an address behind a write; the line is kept."""
        self._memory.put(line_of(place), after)
        start = place % LINE_BYTES
        return int.from_bytes(after[start : start + width], "little")

    def _buffer(self, hart: Hart, place: int, width: int) -> None:
        """Lets a store wait, or drains it at once."""
        line = line_of(place)
        start = place - line
        content = self._memory.line(line)[start : start + width]
        if not hart.buffer.has_room(line):
            oldest = line if hart.buffer.has(line) else hart.buffer.oldest()[0]
            self._drain(hart, oldest, self.stamp)
        hart.buffer.put(place, content)
        if not self._is_late:
            self._drain(hart, line, self.stamp)

    def _atomic(
        self, hart: Hart, expected: Expected, i: Instruction, found: HartRegisters, after: bytes
    ) -> Atomic:
        place, width = expected.paddr, i.width
        before = self._memory.read(place, width)
        behind = self._behind(place, width, after)
        if i.op == "sc":
            value, wrote = self._conditional(hart, i, found, (before, behind), line_of(place))
        else:
            value, wrote = sign_extend(before, 8 * width), i.op != "lr"
            if i.rd and found.x[i.rd] != value:
                raise hart.departure(_elsewhere(f"reads {found.x[i.rd]:x}", place, value))
            if i.op == "lr":
                hart.reserved, hart.linked = line_of(place), value
        new = behind if wrote else 0
        return Atomic(hart.number, self.stamp, hart.pc, expected.bits, value, place, width, int(wrote), new)

    def _conditional(
        self, hart: Hart, i: Instruction, found: HartRegisters, memory: Tuple[int, int], line: int
    ) -> Tuple[int, bool]:
        """What an SC answers, and whether it wrote."""
        is_live = hart.reserved == line
        hart.reserved = None
        before, behind = memory
        if i.rd:
            value = found.x[i.rd]
            wrote = value == 0
        else:
            wrote = before != behind or is_live and behind == hart.x[i.rs2] & ((1 << 8 * i.width) - 1)
            value = int(not wrote)
        if wrote and not is_live:
            what = (
                "QEMU's SC succeeds, since the value is that of its LR; in the profile it has no reservation"
            )
            raise hart.departure(what)
        return value, wrote

    def _control(self, hart: Hart, i: Instruction, found: HartRegisters) -> None:
        """What an instruction did to the registers of control."""
        if i.group == "csr":
            self._csr(hart, i, found.x[i.rd])
        else:
            leave = hart.csrs.leave_machine if i.group == "mret" else hart.csrs.leave_supervisor
            hart.mode, _ = leave()
        self._compare_control(hart)

    def _csr(self, hart: Hart, i: Instruction, shown: int) -> None:
        """The read and the write of a CSR instruction."""
        kept = hart.csrs.read(hart.mode, hart.number, i.number)
        sort, value = kept if kept else ("value", 0)
        if i.rd:
            self._compare_read(hart, i, shown, (sort, value))
        if i.op == "write" or i.rs1:
            operand = i.rs1 if i.word else hart.x[i.rs1]
            old = value if sort == "value" else shown if i.rd else 0
            if i.number in control.COUNTERS and i.op == "set" and not i.rd:
                old = hart.csrs.floors[control.COUNTERS[i.number]]
                operand, old = max(old, operand), 0
            new = {"write": operand, "set": old | operand, "clear": old & ~operand}[i.op]
            hart.csrs.write(i.number, new)

    def _compare_read(self, hart: Hart, i: Instruction, shown: int, kept: Tuple[str, int]) -> None:
        """A value that was read has to be one that the profile allows."""
        sort, value = kept
        name = register_name(i.number)
        if sort == "counter":
            floor = hart.csrs.floors[value]
            if shown < floor:
                raise hart.departure(
                    f"QEMU reads {shown:x} from {name}; in the profile it is at least {floor:x}"
                )
            hart.csrs.floors[value] = shown
        elif sort == "pending":
            if shown & ~value:
                raise hart.departure(f"QEMU reads {shown:x} from {name}; the profile has the bits {value:x}")
        elif shown != value:
            raise hart.departure(f"QEMU reads {shown:x} from {name}; the profile has {value:x}")

    def _snapshot(self, hart: Hart, found: HartRegisters) -> None:
        """Writes the registers, at every so many retired instructions."""
        hart.retired += 1
        if self._snapshots and hart.retired % self._snapshots == 0:
            self._put(Regs(hart.number, self.stamp, found.pc, found.x[1:]))
            control_registers = self._machine.control(hart.number)
            self._put(Csrs(hart.number, self.stamp, control_registers.mode, control_registers.values))


def _line_of_access(expected: Expected) -> Optional[int]:
    """The line of RAM that an instruction accesses."""
    is_access = expected.group in ACCESSES and in_ram(expected.paddr)
    return line_of(expected.paddr) if is_access else None


def _extended(raw: int, i: Instruction) -> int:
    """What a load makes of the bytes that it reads."""
    return sign_extend(raw, 8 * i.width) if i.signed else raw


def _waits_for_all(expected: Expected) -> bool:
    """Whether an instruction waits for all stores of its hart."""
    i = expected.instruction
    if i is None or expected.due:
        return False
    if i.group == "fence":
        return bool(i.rs1 & 1)
    return i.group in ("fence_i", "sfence") or i.group == "atomic" and i.rl


def _elsewhere(what: str, place: int, wanted: int) -> str:
    """That an access went elsewhere than the page table says."""
    return (
        f"QEMU {what}, and {wanted:x} is at {place:x}, where the page table now leads: it held a translation"
    )


def _known(expected: Expected) -> str:
    """What is known of a departure by the trap that did not come."""
    due: Optional[Due] = expected.due
    causes: List[Tuple[Tuple[int, ...], str]] = [
        ((2,), ": QEMU has the instruction or the register, the profile has not"),
        ((4, 6), ": QEMU runs misaligned accesses"),
        ((12, 13, 15), ": QEMU sets the A and D bits of a page table by itself"),
    ]
    return next((text for numbers, text in causes if due and due.cause in numbers), "")
