"""The recorder over a machine whose every step is written down: its records, and its departures."""

from __future__ import annotations

import unittest
from typing import Dict, List, NamedTuple, Optional, Sequence, Tuple

from difftest_probes import Atomic, Commit, Csrs, Drain, Load, Record, Regs, Store, Trap
from difftest_probes.isa import assembler as asm
from difftest_probes.isa import csrs
from difftest_probes.recorder.departure import Departure
from difftest_probes.recorder.machine import ControlRegisters, HartRegisters
from difftest_probes.recorder.stepping import Recorder
from difftest_probes.records import CSR_NAMES, LINE_BYTES, RAM_START, line_of

DATA = RAM_START + 0x1000
DEVICE = 0x10000000
# x5 becomes what the script says.
SET_X5 = asm.addi(5, 0, 0)


class Step(NamedTuple):
    """What a step does: registers, bytes of memory, registers of control, and where the hart then is."""

    x: Dict[int, int] = {}
    memory: Dict[int, bytes] = {}
    control: Dict[str, int] = {}
    pc: Optional[int] = None
    mode: int = 3


class ScriptedMachine:
    """Does at each step what the script says, whatever stands in memory."""

    def __init__(self, code: Sequence[int], script: Sequence[Step], harts: int = 1) -> None:
        self.ram: Dict[int, bytearray] = {}
        self.script = list(script)
        self.states = [HartRegisters((0,) * 32, RAM_START) for _ in range(harts)]
        kept = csrs.Csrs().kept
        self.controls = [ControlRegisters(3, tuple(kept.values())) for _ in range(harts)]
        self.written: List[Tuple[int, bytes]] = []
        for number, bits in enumerate(code):
            self._put(RAM_START + 4 * number, bits.to_bytes(4, "little"))

    def _put(self, address: int, content: bytes) -> None:
        for place, byte in enumerate(content, address):
            line = self.ram.setdefault(line_of(place), bytearray(LINE_BYTES))
            line[place % LINE_BYTES] = byte

    def step(self, hart: int, line: Optional[int]) -> Tuple[HartRegisters, bytes]:
        done = self.script.pop(0)
        old = self.states[hart]
        x = list(old.x)
        for number, value in done.x.items():
            x[number] = value
        for address, content in done.memory.items():
            self._put(address, content)
        if done.control or done.mode != self.controls[hart].mode:
            kept = dict(zip(CSR_NAMES, self.controls[hart].values))
            kept.update(done.control)
            self.controls[hart] = ControlRegisters(done.mode, tuple(kept.values()))
        pc = old.pc + 4 if done.pc is None else done.pc
        self.states[hart] = HartRegisters(tuple(x), pc)
        return self.states[hart], b"" if line is None else self.lines([line])[0]

    def registers(self, hart: int) -> HartRegisters:
        return self.states[hart]

    def control(self, hart: int) -> ControlRegisters:
        return self.controls[hart]

    def lines(self, addresses: Sequence[int]) -> List[bytes]:
        return [bytes(self.ram.get(address, bytes(LINE_BYTES))) for address in addresses]

    def write(self, address: int, content: bytes) -> None:
        self.written.append((address, content))
        self._put(address, content)


class RecorderCase(unittest.TestCase):
    """A recorder over a script, and the records that it hands on."""

    def record(
        self,
        code: Sequence[int],
        script: Sequence[Step],
        order: Sequence[int] = (),
        late: bool = False,
        snapshots: int = 0,
    ) -> List[Record]:
        """Steps the harts in the order (hart 0 alone where there is none)."""
        turns = order or [0] * len(script)
        self.machine = ScriptedMachine(code, script, max(turns) + 1)
        self.records: List[Record] = []
        self.recorder = Recorder(
            self.machine, max(turns) + 1, self.records.append, is_late=late, snapshots=snapshots
        )
        self.recorder.begin()
        for hart in turns:
            self.recorder.step(self.recorder.harts[hart])
        return self.records

    def departs(self, words: str, code: Sequence[int], script: Sequence[Step], kept: int) -> None:
        """The last step departs with these words, at its pc, and so many records stand before it."""
        with self.assertRaisesRegex(Departure, words) as caught:
            self.record(code, script)
        self.assertEqual(caught.exception.pc, RAM_START + 4 * (len(script) - 1))
        self.assertEqual(len(self.records), kept)


def drain(hart: int, stamp: int, place: int, content: bytes, count: int = 1) -> Drain:
    """The drain of bytes at an address."""
    start = place % LINE_BYTES
    mask = ((1 << len(content)) - 1) << start
    line = bytes(start) + content + bytes(LINE_BYTES - start - len(content))
    return Drain(hart, stamp, line_of(place), mask, count, line)


STORE = asm.store(4, 6, 5, 0)
LOAD = asm.load(4, True, 7, 5, 0)
READY = Step({5: DATA, 6: 0xAABBCCDD11223344})
STORED = Step(memory={DATA: b"\x44\x33\x22\x11"})


class Stores(RecorderCase):
    """Stores and their drains."""

    def test_drains_at_once(self) -> None:
        found = self.record([SET_X5, STORE], [READY, STORED])
        wanted = [
            Commit(0, 2, RAM_START, SET_X5, DATA),
            Store(0, 4, RAM_START + 4, STORE, DATA, 0x11223344),
            drain(0, 4, DATA, b"\x44\x33\x22\x11"),
        ]
        self.assertEqual(found, wanted)

    def test_a_store_to_a_device_has_no_drain(self) -> None:
        found = self.record([SET_X5, STORE], [Step({5: DEVICE, 6: 0x41}), Step()])
        self.assertEqual(found[1:], [Store(0, 4, RAM_START + 4, STORE, DEVICE, 0x41)])

    def test_late_drains_come_before_another_hart_looks(self) -> None:
        loaded = Step({7: 0x11223344})
        found = self.record(
            [SET_X5, STORE, LOAD], [READY, READY, STORED, STORED, loaded], [0, 1, 0, 1, 0], True
        )
        kinds = [(record.kind, record.hart, record.stamp) for record in found[2:]]
        # The store of hart 1 sees hart 0's line in memory, and the load of hart 0 sees hart 1's.
        wanted = [("Store", 0, 6), ("Drain", 0, 7), ("Store", 1, 8), ("Drain", 1, 9), ("Load", 0, 10)]
        self.assertEqual(kinds, wanted)
        self.assertEqual(found[3], drain(0, 7, DATA, b"\x44\x33\x22\x11"))

    def test_a_hart_reads_its_own_waiting_store(self) -> None:
        found = self.record([SET_X5, STORE, LOAD], [READY, STORED, Step({7: 0x11223344})], late=True)
        self.assertEqual([record.kind for record in found], ["Commit", "Store", "Load"])
        self.assertEqual(found[2], Load(0, 6, RAM_START + 8, LOAD, 0x11223344, 6, DATA))

    def test_late_stores_of_a_line_merge_until_a_fence(self) -> None:
        second = asm.store(1, 6, 5, 4)
        fence = asm.fence(0, 3, 1)
        script = [READY, STORED, Step(memory={DATA + 4: b"\x44"}), Step()]
        found = self.record([SET_X5, STORE, second, fence], script, late=True)
        wanted = [drain(0, 7, DATA, b"\x44\x33\x22\x11\x44", 2), Commit(0, 8, RAM_START + 12, fence, 0)]
        self.assertEqual(found[3:], wanted)

    def test_a_fence_of_reads_waits_for_nothing(self) -> None:
        fence = asm.fence(0, 2, 3)
        found = self.record([SET_X5, STORE, fence], [READY, STORED, Step()], late=True)
        self.assertEqual([record.kind for record in found], ["Commit", "Store", "Commit"])

    def test_what_waits_for_all_stores(self) -> None:
        rl, aq = (asm.atomic("add", 4, 0, 9, 6, bit) for bit in (asm.RL, asm.AQ))
        rows = ((asm.FENCE_I, True), (asm.sfence_vma(0, 0), True), (rl, True), (aq, False))
        for bits, waits in rows:
            with self.subTest(f"{bits:x}"):
                ready = Step({**READY.x, 9: DATA + 64})
                behind = Step(memory={DATA + 64: b"\x44\x33\x22\x11"})
                found = self.record([SET_X5, STORE, bits], [ready, STORED, behind], late=True)
                kinds = [record.kind for record in found[2:]]
                self.assertEqual(kinds[:-1], ["Drain"] if waits else [])

    def test_a_full_buffer_drains_its_oldest_line(self) -> None:
        stores = [asm.store(1, 6, 5, 64 * number) for number in range(5)]
        script = [READY, *(Step(memory={DATA + 64 * number: b"\x44"}) for number in range(5))]
        found = self.record([SET_X5, *stores], script, late=True)
        self.assertEqual(found[-1], drain(0, 12, DATA, b"\x44"))
        self.assertEqual([record.kind for record in found].count("Drain"), 1)

    def test_a_fetch_from_a_stored_line_comes_behind_its_drain(self) -> None:
        place = RAM_START + 8
        content = SET_X5.to_bytes(4, "little")
        script = [Step({5: place, 6: SET_X5}), Step(memory={place: content}), Step({5: 3})]
        found = self.record([SET_X5, STORE], script, late=True)
        self.assertEqual(found[2:], [drain(0, 5, place, content), Commit(0, 6, place, SET_X5, 3)])

    def test_a_store_that_went_elsewhere(self) -> None:
        self.departs("stores 11223344, and 0 is at 80001000", [SET_X5, STORE], [READY, Step()], 1)


class Loads(RecorderCase):
    """Loads."""

    def test_a_load_of_another_value(self) -> None:
        script = [READY, STORED, Step({7: 0x11223345})]
        self.departs("reads 11223345, and 11223344 is at", [SET_X5, STORE, LOAD], script, 3)

    def test_a_device_may_give_any_value_of_its_width(self) -> None:
        found = self.record([SET_X5, LOAD], [Step({5: DEVICE}), Step({7: 0xFFFFFFFF80000000})])
        self.assertEqual(found[1], Load(0, 4, RAM_START + 4, LOAD, 0xFFFFFFFF80000000, 4, DEVICE))
        self.departs("more than 4 bytes", [SET_X5, LOAD], [Step({5: DEVICE}), Step({7: 0x80000000})], 1)

    def test_what_is_loaded_into_x0(self) -> None:
        load = asm.load(1, True, 0, 5, 0)
        ready = Step({5: DATA}, {DATA: b"\xfe"})
        found = self.record([SET_X5, load], [ready, Step()])
        self.assertEqual(found[1], Load(0, 4, RAM_START + 4, load, 0xFFFFFFFFFFFFFFFE, 4, DATA))
        self.assertEqual(self.recorder.unseen, 0)
        self.record([SET_X5, load], [Step({5: DEVICE}), Step()])
        self.assertEqual(self.recorder.unseen, 1)

    def test_a_misaligned_load_that_runs(self) -> None:
        load = asm.load(4, True, 7, 5, 2)
        self.departs("cause 4: QEMU runs misaligned accesses", [SET_X5, load], [READY, Step({7: 0})], 1)


class Atomics(RecorderCase):
    """LR, SC and AMO."""

    LR = asm.atomic("lr", 4, 7, 5)
    SC = asm.atomic("sc", 4, 8, 5, 6)
    AMO = asm.atomic("add", 4, 0, 5, 6)

    def test_an_amo_into_x0_shows_what_was_there_before(self) -> None:
        # ffffffff + 11223344, modulo 2^32.
        script = [Step(READY.x, {DATA: b"\xff" * 4}), Step(memory={DATA: b"\x43\x33\x22\x11"})]
        found = self.record([SET_X5, self.AMO], script)
        wanted = Atomic(0, 4, RAM_START + 4, self.AMO, 0xFFFFFFFFFFFFFFFF, DATA, 4, 1, 0x11223343)
        self.assertEqual(found[1], wanted)

    def test_an_sc_that_succeeds(self) -> None:
        found = self.record([SET_X5, self.LR, self.SC], [READY, Step({7: 0}), Step({8: 0}, STORED.memory)])
        wanted = [
            Atomic(0, 4, RAM_START + 4, self.LR, 0, DATA, 4, 0, 0),
            Atomic(0, 6, RAM_START + 8, self.SC, 0, DATA, 4, 1, 0x11223344),
        ]
        self.assertEqual(found[1:], wanted)
        self.assertEqual(self.machine.written, [])

    def test_an_sc_behind_another_harts_store_of_the_same_value_is_made_to_fail(self) -> None:
        code = [SET_X5, self.LR, self.SC]
        other = Step({5: DATA, 6: 0})
        script = [READY, Step({7: 0}), other, Step({7: 0}), Step({8: 0}), Step({8: 1})]
        found = self.record(code, script, [0, 0, 1, 1, 1, 0])
        # Hart 1 wrote the 0 that hart 0 had read. For hart 0's SC the word is all ones, and then as before.
        self.assertEqual(self.machine.written, [(DATA, b"\xff" * 4), (DATA, b"\x00" * 4)])
        self.assertEqual(found[-1], Atomic(0, 12, RAM_START + 8, self.SC, 1, DATA, 4, 0, 0))
        self.assertEqual(self.recorder.made_to_fail, 1)

    def test_an_sc_that_qemu_fails_anyway_is_left_alone(self) -> None:
        code = [SET_X5, self.LR, self.SC]
        script = [READY, Step({7: 0}), READY, Step({7: 0}), Step({8: 0}, STORED.memory), Step({8: 1})]
        found = self.record(code, script, [0, 0, 1, 1, 1, 0])
        self.assertEqual(self.machine.written, [])
        self.assertEqual(found[-1], Atomic(0, 12, RAM_START + 8, self.SC, 1, DATA, 4, 0, 0))

    def test_an_sc_ends_the_reservation(self) -> None:
        code = [SET_X5, self.LR, self.SC, self.SC]
        script = [Step({5: DATA}), Step({7: 0}), Step({8: 0}), Step({8: 1})]
        found = self.record(code, script)
        self.assertEqual([place for place, _ in self.machine.written], [DATA, DATA])
        self.assertEqual([record.wrote for record in found if isinstance(record, Atomic)], [0, 1, 0])

    def test_own_stores_leave_the_reservation(self) -> None:
        store = asm.store(4, 6, 5, 8)
        script = [
            READY,
            Step({7: 0}),
            Step(memory={DATA + 8: b"\x44\x33\x22\x11"}),
            Step({8: 0}, STORED.memory),
        ]
        found = self.record([SET_X5, self.LR, store, self.SC], script)
        self.assertEqual(found[-1], Atomic(0, 8, RAM_START + 12, self.SC, 0, DATA, 4, 1, 0x11223344))

    def test_scs_into_x0(self) -> None:
        code = [SET_X5, self.LR, asm.atomic("sc", 4, 0, 5, 6), asm.atomic("sc", 4, 0, 5, 6)]
        script = [READY, Step({7: 0}), Step(memory=STORED.memory), Step()]
        found = self.record(code, script)
        self.assertEqual(found[2], Atomic(0, 6, RAM_START + 8, code[2], 0, DATA, 4, 1, 0x11223344))
        self.assertEqual(found[3], Atomic(0, 8, RAM_START + 12, code[3], 1, DATA, 4, 0, 0))
        with self.assertRaisesRegex(Departure, "QEMU's SC succeeds"):
            self.record([SET_X5, code[2]], [READY, STORED])

    def test_an_amo_that_reads_another_value(self) -> None:
        amo = asm.atomic("add", 4, 8, 5, 6)
        words = "reads 1, and 0 is at 80001000"
        self.departs(words, [SET_X5, amo], [READY, Step({8: 1}, STORED.memory)], 1)

    def test_an_sc_without_a_reservation_that_succeeds(self) -> None:
        script = [READY, Step(pc=RAM_START + 8), Step({8: 0}, STORED.memory)]
        with self.assertRaisesRegex(Departure, "80000008: QEMU's SC succeeds"):
            self.record([SET_X5, asm.jal(0, 4), self.SC], script)

    def test_an_atomic_comes_behind_the_drain_of_its_line(self) -> None:
        script = [READY, STORED, Step(memory={DATA: b"\x88\x66\x44\x22"})]
        found = self.record([SET_X5, STORE, self.AMO], script, late=True)
        self.assertEqual([record.kind for record in found[1:]], ["Store", "Drain", "Atomic"])
        self.assertEqual(found[2].stamp, 5)


class Control(RecorderCase):
    """Traps, registers of control, and harts that wait."""

    HANDLER = RAM_START + 0x40

    def trap(self, tval: int, **changed: int) -> List[Record]:
        """EBREAK as the third instruction, behind a write of mtvec."""
        code = [SET_X5, asm.csr("write", 0x305, 0, 5), asm.EBREAK]
        control = {"mepc": RAM_START + 8, "mcause": 3, "mstatus": 0xA00001800, "mtval": tval, **changed}
        trapped = Step(control=control, pc=self.HANDLER)
        return self.record(code, [Step({5: self.HANDLER}), Step(control={"mtvec": self.HANDLER}), trapped])

    def test_a_trap(self) -> None:
        found = self.trap(RAM_START + 8)
        self.assertEqual(found[2], Trap(0, 6, RAM_START + 8, asm.EBREAK, 3, RAM_START + 8))
        self.assertEqual(self.trap(0)[2], Trap(0, 6, RAM_START + 8, asm.EBREAK, 3, 0))

    def test_a_trap_with_another_tval(self) -> None:
        with self.assertRaisesRegex(Departure, "80000008: QEMU puts 1234 into mtval"):
            self.trap(0x1234)

    def test_a_trap_of_another_cause(self) -> None:
        with self.assertRaisesRegex(Departure, "a trap of cause 2; the profile has one of cause 3"):
            self.trap(0, mcause=2)

    def test_a_trap_that_leaves_another_status(self) -> None:
        with self.assertRaisesRegex(Departure, "mstatus is then a00000000; the profile's is a00001800"):
            self.trap(0, mstatus=0xA00000000)

    def test_a_trap_to_another_handler(self) -> None:
        code = [SET_X5, asm.csr("write", 0x105, 0, 5), asm.EBREAK]
        control = {"mepc": RAM_START + 8, "mcause": 3, "mstatus": 0xA00001800}
        script = [Step({5: self.HANDLER}), Step(control={"stvec": self.HANDLER})]
        with self.assertRaisesRegex(Departure, "the profile's handler is at 0"):
            self.record(code, [*script, Step(control=control, pc=self.HANDLER)])

    def test_a_return_to_another_mode(self) -> None:
        code = [SET_X5, asm.csr("write", 0x341, 0, 5), asm.MRET]
        script = [Step({5: RAM_START + 12}), Step(control={"mepc": RAM_START + 12})]
        returned = {"mstatus": 0xA00000080}
        self.record(code, [*script, Step(control=returned, mode=0)])
        with self.assertRaisesRegex(Departure, "mode is then 1; the profile's is 0"):
            self.record(code, [*script, Step(control=returned, mode=1)])

    def test_a_register_that_keeps_other_bits(self) -> None:
        code = [SET_X5, asm.csr("write", 0x302, 0, 5)]
        script = [Step({5: (1 << 64) - 1}), Step(control={"medeleg": 0xF0BFFF})]
        self.departs("medeleg is then f0bfff; the profile's is b3ff", code, script, 1)

    def test_a_register_that_the_profile_has_not(self) -> None:
        code = [asm.csr("write", 0x320, 0, 0)]
        self.departs("cause 2: QEMU has the instruction or the register", code, [Step()], 0)

    def test_a_register_that_reads_as_another_value(self) -> None:
        code = [asm.csr("set", 0xF12, 7, 0)]
        self.departs("reads 70216 from marchid; the profile has 0", code, [Step({7: 0x70216})], 0)

    def test_a_counter_that_falls(self) -> None:
        read = asm.csr("set", 0xC00, 7, 0)
        self.record([read, read], [Step({7: 9}), Step({7: 9})])
        words = "reads 8 from cycle; in the profile it is at least 9"
        self.departs(words, [read, read], [Step({7: 9}), Step({7: 8})], 1)

    def test_a_counter_whose_old_value_is_not_shown(self) -> None:
        read, raise_to = asm.csr("set", 0xB00, 7, 0), asm.csr("set", 0xB00, 0, 5)
        code, start = [read, SET_X5, raise_to, read], [Step({7: 10}), Step({5: 9}), Step()]
        self.record(code, [*start, Step({7: 10})])
        self.departs("at least a", code, [*start, Step({7: 9})], 3)
        start[1] = Step({5: 12})
        self.departs("at least c", code, [*start, Step({7: 11})], 3)

    def test_pending_bits_that_the_profile_has_not(self) -> None:
        read = asm.csr("set", 0x344, 7, 0)
        self.record([read], [Step({7: 0x80})])
        self.departs("reads 400 from mip; the profile has the bits aaa", [read], [Step({7: 0x400})], 0)

    def test_a_jump_to_another_place(self) -> None:
        words = "goes on at 80000010; the profile goes on at 80000008"
        self.departs(words, [asm.jal(0, 8)], [Step(pc=RAM_START + 16)], 0)

    def test_a_hart_waits(self) -> None:
        self.assertEqual(self.record([asm.WFI], [], [0]), [])
        self.assertTrue(self.recorder.harts[0].waits)

    def test_a_hart_that_does_not_begin_with_zeros(self) -> None:
        machine = ScriptedMachine([SET_X5], [])
        machine.states[0] = HartRegisters((0,) * 31 + (1,), RAM_START)
        with self.assertRaisesRegex(Departure, "x1 to x31 0"):
            Recorder(machine, 1, print, is_late=False, snapshots=0).begin()

    def test_a_hart_that_does_not_begin_as_after_a_reset(self) -> None:
        machine = ScriptedMachine([SET_X5], [])
        machine.controls[0] = ControlRegisters(3, (0xA00000080, *machine.controls[0].values[1:]))
        with self.assertRaisesRegex(Departure, "mstatus is then a00000080"):
            Recorder(machine, 1, print, is_late=False, snapshots=0).begin()

    def test_snapshots(self) -> None:
        found = self.record([SET_X5, SET_X5, SET_X5], [Step({5: 7})] * 3, snapshots=2)
        self.assertEqual([record.kind for record in found], ["Commit", "Commit", "Regs", "Csrs", "Commit"])
        x = (0, 0, 0, 0, 7) + (0,) * 26
        self.assertEqual(found[2], Regs(0, 4, RAM_START + 8, x))
        self.assertEqual(found[3], Csrs(0, 4, 3, (0xA00000000,) + (0,) * 16))


if __name__ == "__main__":
    unittest.main()
