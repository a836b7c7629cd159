"""The toy device: a fixed machine whose every choice a seed decides."""

from difftest_probes.isa import csrs as control
from difftest_probes.isa.fields import (ALL_ONES, INTERRUPT_FLAG, LINE_BYTES, RAM_END, RAM_START, in_ram, line_of,
                     sign_extend, wrap)
from difftest_probes.isa.walking import (FETCH, LOAD, PAGE_FAULT, STORE, canonical, cause_of, find_leaf, permitted,
                      settle, view_of)
from .arithmetic import amo, extend
from .draws import Draws
from .files import KIND_OF_NAME
from .hart import Hart

TIMER = 7


class BufferLine:
    """One line of a store buffer."""

    def __init__(self, line):
        self.line, self.mask, self.count = line, 0, 0
        self.bytes = bytearray(LINE_BYTES)


class DeviceHart:
    """One hart of the device with its buffer, translations, reservation and counts."""

    def __init__(self, number, wide):
        self.state = Hart(number, wide)
        self.buffer = []
        self.entries = [None] * 16
        self.reserved = None
        self.retired = 0
        # Each written counter as (value, the count of its clock that this value stands for).
        self.written = {}

    def line(self, line):
        """The buffered line of this address, or None."""
        return next((held for held in self.buffer if held.line == line), None)


class ToyDevice:
    """Memory and harts; each cycle gives the records of one turn of each hart."""

    def __init__(self, image, harts, seed, fault, wide=False):
        self.ram = bytearray(RAM_END - RAM_START)
        self.ram[:len(image)] = image
        self.harts = [DeviceHart(number, wide) for number in range(harts)]
        self.draws = Draws(seed)
        self.fault = fault
        self.out = []

    def run(self, cycles):
        """All records of a run."""
        for cycle in range(cycles):
            for hart in self.harts:
                self._turn(hart, cycle, self.draws.draw())
        return self.out

    def _record(self, hart, cycle, kind, **body):
        self.out.append(KIND_OF_NAME[kind](hart.state.number, cycle, **body))

    def _read(self, address, width):
        start = address - RAM_START
        return int.from_bytes(self.ram[start:start + width], "little")

    def _write(self, hart, address, value):
        start = address - RAM_START
        self.ram[start:start + len(value)] = value
        if self.fault != 1:
            for other in self.harts:
                if other is not hart and other.reserved == line_of(address):
                    other.reserved = None

    def _turn(self, hart, cycle, draw):
        state = hart.state
        if cycle and cycle % 256 == 0:
            enabled = state.csrs.enabled_interrupts(state.mode) >> TIMER & 1
            if enabled or self.fault == 6:
                self._trap(hart, cycle, 0, INTERRUPT_FLAG | TIMER, 0)
                return
        if draw % 4 == 0 and hart.buffer:
            self._drain(hart, cycle)
            return
        bits, fault = self._fetch(hart)
        if fault:
            cause, address = fault
            self._trap(hart, cycle, bits, cause, address)
            return
        plan = state.plan(bits)
        if plan.sort == "raise":
            self._trap(hart, cycle, bits, plan.cause, plan.tval)
            return
        if plan.sort in ("fence", "fence_i", "sfence", "atomic") and hart.buffer:
            self._drain(hart, cycle)
            return
        if getattr(self, "_do_" + plan.sort)(hart, cycle, bits, plan, draw):
            self._retired(hart, cycle)

    def _trap(self, hart, cycle, bits, cause, tval):
        self._record(hart, cycle, "Trap", pc=hart.state.pc, bits=bits, cause=cause, tval=tval)
        hart.state.trap(cause, tval)

    def _drain(self, hart, cycle):
        held = hart.buffer.pop(0)
        for place in range(LINE_BYTES):
            if held.mask >> place & 1:
                self._write(hart, held.line + place, held.bytes[place:place + 1])
        count = held.count - 1 if self.fault == 4 and held.count > 1 else held.count
        self._record(hart, cycle, "Drain", line=held.line, mask=held.mask, count=count,
                     content=bytes(held.bytes))

    def _translate(self, hart, address, access):
        """The physical address, or a fault, by the entries or by a walk."""
        state = hart.state
        view = view_of(state.csrs, state.mode, access)
        if not view.on:
            return address
        if not canonical(address, view.levels):
            return PAGE_FAULT
        number = address >> 12
        entry = hart.entries[number % 16]
        if entry is None or entry[0] != number:
            found = find_leaf(lambda place: self._read(place, 8), address, view.root,
                              view.levels)
            if isinstance(found, str):
                return found
            leaf, page = found
            if not permitted(leaf, access, view):
                return PAGE_FAULT
            entry = number, page, leaf
            hart.entries[number % 16] = entry
        if not permitted(entry[2], access, view):
            return PAGE_FAULT
        return entry[1] | address & 0xFFF

    def _fetch(self, hart):
        """The fetched bits and None, or the bits so far and (cause, address)."""
        bits = 0
        for part in (0, 1):
            address = wrap(hart.state.pc + 2 * part)
            place = settle(self._translate(hart, address, FETCH), True)
            if isinstance(place, str):
                return bits, (cause_of(place, FETCH), address)
            bits |= self._read(place, 2) << 16 * part
            if bits & 3 != 3:
                break
        return bits, None

    def _retired(self, hart, cycle):
        hart.retired += 1
        if hart.retired % 256 == 0:
            state = hart.state
            self._record(hart, cycle, "Regs", pc=state.pc, x=tuple(state.x[1:]))
            self._record(hart, cycle, "Csrs", mode=state.mode, v=tuple(state.csrs.values()))

    def _commit(self, hart, cycle, bits, value, next_pc):
        self._record(hart, cycle, "Commit", pc=hart.state.pc, bits=bits, value=value)
        hart.state.pc = next_pc
        return True

    def _do_done(self, hart, cycle, bits, plan, draw):
        value = plan.value
        if self.fault == 5 and self._divides_by_zero(hart, bits):
            value = 0
        self._commit(hart, cycle, bits, value, plan.next)
        hart.state.set_register(plan.rd, value)
        return True

    def _divides_by_zero(self, hart, bits):
        divides = bits & 0xFE00007F == 0x02000033 and bits >> 12 & 7 in (4, 5)
        return divides and hart.state.x[bits >> 20 & 31] == 0

    def _do_fence(self, hart, cycle, bits, plan, draw):
        return self._commit(hart, cycle, bits, 0, plan.next)

    _do_fence_i = _do_fence

    def _do_sfence(self, hart, cycle, bits, plan, draw):
        if self.fault != 3:
            hart.entries = [None] * 16
        return self._commit(hart, cycle, bits, 0, plan.next)

    def _do_return(self, hart, cycle, bits, plan, draw):
        self._commit(hart, cycle, bits, 0, 0)
        hart.state.go_back(plan)
        return True

    def _counter(self, hart, cycle, counter):
        clock = hart.retired if counter == control.INSTRET else cycle
        value, since = hart.written.get(counter, (0, 0))
        return min(value + clock - since, ALL_ONES)

    def _do_csr(self, hart, cycle, bits, plan, draw):
        state, number = hart.state, plan.number
        sort, old = state.csrs.read(state.mode, state.number, number)
        if sort == "counter":
            old = self._counter(hart, cycle, old)
        elif sort == "pending":
            old = 0
        if plan.writes:
            new = state.new_csr_value(plan, old)
            if number in control.COUNTERS:
                self._set_counter(hart, cycle, control.COUNTERS[number], new)
            else:
                state.csrs.write(number, new)
            if number == control.SATP:
                hart.entries = [None] * 16
        value = old if plan.rd and plan.reads else 0
        self._commit(hart, cycle, bits, value, plan.next)
        state.set_register(plan.rd, value)
        return True

    def _set_counter(self, hart, cycle, counter, value):
        # A written count of instructions doesn't count the writing one.
        since = hart.retired + 1 if counter == control.INSTRET else cycle
        hart.written[counter] = (value, since)

    def _place(self, hart, cycle, bits, plan, access, ram_only):
        """The physical address of a data access, or None after its trap."""
        answer = settle(self._translate(hart, plan.va, access), ram_only)
        if isinstance(answer, str):
            self._trap(hart, cycle, bits, cause_of(answer, access), plan.va)
            return None
        return answer

    def _do_load(self, hart, cycle, bits, plan, draw):
        place = self._place(hart, cycle, bits, plan, LOAD, False)
        if place is None:
            return False
        if in_ram(place):
            raw = self._look(hart, place, plan.width)
        else:
            raw = draw
        value = extend(plan.width, plan.signed, raw)
        self._record(hart, cycle, "Load", pc=hart.state.pc, bits=bits, value=value, at=cycle,
                     paddr=place)
        hart.state.set_register(plan.rd, value)
        hart.state.pc = plan.next
        return True

    def _look(self, hart, place, width):
        raw = bytearray(self._read(place, width).to_bytes(width, "little"))
        held = hart.line(line_of(place)) if self.fault != 2 else None
        for byte in range(width if held else 0):
            offset = place % LINE_BYTES + byte
            if held.mask >> offset & 1:
                raw[byte] = held.bytes[offset]
        return int.from_bytes(raw, "little")

    def _do_store(self, hart, cycle, bits, plan, draw):
        place = self._place(hart, cycle, bits, plan, STORE, False)
        if place is None:
            return False
        if in_ram(place):
            held = hart.line(line_of(place))
            full = held is None and len(hart.buffer) == 8
            if full or held is not None and held.count == 65535:
                self._drain(hart, cycle)
                return False
            self._merge(hart, held, place, plan)
        self._record(hart, cycle, "Store", pc=hart.state.pc, bits=bits, paddr=place,
                     value=plan.value)
        hart.state.pc = plan.next
        return True

    def _merge(self, hart, held, place, plan):
        if held is None:
            held = BufferLine(line_of(place))
            hart.buffer.append(held)
        offset = place % LINE_BYTES
        held.bytes[offset:offset + plan.width] = plan.value.to_bytes(plan.width, "little")
        held.mask |= ((1 << plan.width) - 1) << offset
        held.count += 1

    def _do_atomic(self, hart, cycle, bits, plan, draw):
        access = LOAD if plan.op == "lr" else STORE
        place = self._place(hart, cycle, bits, plan, access, True)
        if place is None:
            return False
        value, wrote, new = self._perform(hart, place, plan, draw)
        self._record(hart, cycle, "Atomic", pc=hart.state.pc, bits=bits, value=value, paddr=place,
                     width=plan.width, wrote=int(wrote), new=new)
        hart.state.set_register(plan.rd, value)
        hart.state.pc = plan.next
        return True

    def _perform(self, hart, place, plan, draw):
        width = plan.width
        old = self._read(place, width)
        if plan.op == "lr":
            hart.reserved = line_of(place)
            return sign_extend(old, 8 * width), False, 0
        if plan.op == "sc":
            wrote = hart.reserved == line_of(place) and (draw >> 8) % 16 != 0
            hart.reserved = None
            new = plan.value & ((1 << 8 * width) - 1) if wrote else 0
            value = int(not wrote)
        else:
            wrote, new = True, amo(plan.op, width, old, plan.value)
            value = sign_extend(old, 8 * width)
        if wrote:
            self._write(hart, place, new.to_bytes(width, "little"))
        return value, wrote, new
