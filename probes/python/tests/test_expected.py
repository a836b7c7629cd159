"""What the recorder expects of an instruction, by hand from the privileged manual; and its store buffer."""

from __future__ import annotations

import unittest
from typing import Dict, Optional

from difftest_probes.isa import assembler as asm
from difftest_probes.isa import csrs
from difftest_probes.isa.fields import MACHINE, SUPERVISOR, USER
from difftest_probes.recorder.buffers import MOST_COUNT, StoreBuffer
from difftest_probes.recorder.expected import Due, Expected, HartState, expect
from difftest_probes.records import RAM_START

DEVICE, NOWHERE = 0x10000000, 0x90000000
ROOT = RAM_START + 0x1000
# Of Sv39, a gigabyte at 80000000 where it is; R and X, no W, with A. The second has no A.
LEAF = (RAM_START >> 12 << 10) | 0x4B
NOT_ACCESSED = (RAM_START >> 12 << 10) | 0x0B


class ExpectedCase(unittest.TestCase):
    """A hart at the start of RAM, and memory of some words."""

    def setUp(self) -> None:
        self.hart = HartState(0)
        self.words: Dict[int, int] = {}

    def read(self, address: int, width: int) -> int:
        """Memory: words of 8 bytes, and 0."""
        word = self.words.get(address & ~7, 0) >> 8 * (address % 8)
        return word & ((1 << 8 * width) - 1)

    def expected(self, bits: int, mode: int = MACHINE, x5: int = 0) -> Expected:
        """What is expected of the instruction in a mode, with a value in x5."""
        self.words[RAM_START] = bits
        self.hart.mode = mode
        self.hart.x = (0,) * 5 + (x5,) + (0,) * 26
        return expect(self.hart, self.read)

    def due(self, bits: int, mode: int = MACHINE, x5: int = 0) -> Optional[Due]:
        """The trap that is expected."""
        return self.expected(bits, mode, x5).due


class Instructions(ExpectedCase):
    """What an instruction raises by itself, and where it leads."""

    def test_what_a_mode_may_not_run(self) -> None:
        sfence = asm.sfence_vma(0, 0)
        allowed = {
            asm.MRET: (MACHINE,),
            asm.SRET: (MACHINE, SUPERVISOR),
            asm.WFI: (MACHINE, SUPERVISOR),
            sfence: (MACHINE, SUPERVISOR),
        }
        for bits, modes in allowed.items():
            for mode in (USER, SUPERVISOR, MACHINE):
                with self.subTest(bits=f"{bits:x}", mode=mode):
                    self.assertEqual(self.due(bits, mode), None if mode in modes else Due(2, bits))

    def test_what_mstatus_bars(self) -> None:
        for bits, bit in ((asm.SRET, csrs.TSR), (asm.WFI, csrs.TW), (asm.sfence_vma(0, 0), csrs.TVM)):
            with self.subTest(f"{bits:x}"):
                self.hart.csrs.kept["mstatus"] = bit
                self.assertEqual(self.due(bits, SUPERVISOR), Due(2, bits))
                self.assertIsNone(self.due(bits, MACHINE))

    def test_calls(self) -> None:
        causes = [self.due(asm.ECALL, mode) for mode in (USER, SUPERVISOR, MACHINE)]
        self.assertEqual(causes, [Due(8, 0), Due(9, 0), Due(11, 0)])
        self.assertEqual(self.due(asm.EBREAK), Due(3, RAM_START))

    def test_registers(self) -> None:
        self.assertEqual(self.due(asm.csr("set", 0x300, 1, 0), USER), Due(2, asm.csr("set", 0x300, 1, 0)))
        # mhartid may be read and not written; a set of no bits is no write.
        self.assertIsNone(self.due(asm.csr("set", 0xF14, 1, 0)))
        self.assertEqual(self.due(asm.csr("set", 0xF14, 1, 5)), Due(2, asm.csr("set", 0xF14, 1, 5)))

    def test_misaligned_accesses(self) -> None:
        place = RAM_START + 0x102
        rows = (
            (asm.load(4, True, 1, 5, 0), 4),
            (asm.store(4, 1, 5, 0), 6),
            (asm.atomic("lr", 4, 1, 5), 4),
            (asm.atomic("sc", 4, 1, 5, 6), 6),
            (asm.atomic("add", 4, 1, 5, 6), 6),
        )
        for bits, cause in rows:
            with self.subTest(f"{bits:x}"):
                self.assertEqual(self.due(bits, x5=place), Due(cause, place))
        self.assertIsNone(self.due(asm.load(2, True, 1, 5, 0), x5=place))

    def test_where_it_leads(self) -> None:
        self.hart.csrs.kept.update(mepc=0x100, sepc=0x200)
        rows = (
            (asm.addi(1, 0, 0), (RAM_START + 4,)),
            (0x0001, (RAM_START + 2,)),
            (asm.jal(1, -8), (RAM_START - 8,)),
            (asm.immediate_form(0x67, 0, 1, 5, 3), (0x1002,)),
            (asm.branch("eq", 1, 2, 64), (RAM_START + 4, RAM_START + 64)),
            (asm.MRET, (0x100,)),
            (asm.SRET, (0x200,)),
        )
        for bits, wanted in rows:
            with self.subTest(f"{bits:x}"):
                self.assertEqual(self.expected(bits, x5=0x1000).following, wanted)


class Addresses(ExpectedCase):
    """Fetches and accesses, with and without translation."""

    LOAD, STORE = asm.load(8, True, 1, 5, 0), asm.store(8, 1, 5, 0)
    ADD = asm.atomic("add", 8, 1, 5, 6)

    def test_devices_and_nothing(self) -> None:
        self.assertEqual(self.expected(self.LOAD, x5=DEVICE).paddr, DEVICE)
        self.assertEqual(self.expected(self.STORE, x5=DEVICE).paddr, DEVICE)
        self.assertEqual(self.due(self.ADD, x5=DEVICE), Due(7, DEVICE))
        self.assertEqual(self.due(self.LOAD, x5=NOWHERE), Due(5, NOWHERE))
        self.assertEqual(self.due(self.STORE, x5=NOWHERE), Due(7, NOWHERE))

    def test_a_fetch_from_a_device(self) -> None:
        self.hart.pc = DEVICE
        self.assertEqual(self.due(0), Due(1, DEVICE))

    def translated(self, leaf: int) -> None:
        """Sv39 with one page of a gigabyte at 80000000."""
        self.hart.csrs.kept["satp"] = 8 << 60 | ROOT >> 12
        self.words[ROOT + 16] = leaf

    def test_pages(self) -> None:
        self.translated(LEAF)
        place = RAM_START + 0x2000
        self.assertEqual(self.expected(self.LOAD, SUPERVISOR, place).paddr, place)
        self.assertEqual(self.due(self.STORE, SUPERVISOR, place), Due(15, place))
        self.assertEqual(self.due(self.ADD, SUPERVISOR, place), Due(15, place))
        self.assertEqual(self.expected(asm.atomic("lr", 8, 1, 5), SUPERVISOR, place).paddr, place)
        self.assertEqual(self.due(self.LOAD, SUPERVISOR, 0x1000), Due(13, 0x1000))

    def test_a_page_without_a(self) -> None:
        self.translated(NOT_ACCESSED)
        self.assertEqual(self.expected(self.LOAD, SUPERVISOR), Expected(0, due=Due(12, RAM_START)))

    def test_an_instruction_over_the_end_of_ram(self) -> None:
        self.hart.pc = 0x83FFFFFE
        self.words[0x83FFFFF8] = 0x0013 << 48
        self.assertEqual(expect(self.hart, self.read), Expected(0x13, due=Due(1, 0x84000000)))

    def test_an_instruction_in_two_words(self) -> None:
        self.hart.pc = RAM_START + 6
        self.words.update({RAM_START: 0x0093 << 48, RAM_START + 8: 0x0050})
        self.assertEqual(expect(self.hart, self.read).bits, 0x00500093)


class Buffers(unittest.TestCase):
    """The bounds of a store buffer."""

    def test_a_line_counts_no_more_than_a_drain_can(self) -> None:
        buffer = StoreBuffer(0)
        for _ in range(MOST_COUNT):
            self.assertTrue(buffer.has_room(RAM_START))
            buffer.put(RAM_START, b"\1")
        self.assertFalse(buffer.has_room(RAM_START))
        self.assertEqual([drain.count for drain in buffer.drain(RAM_START, 1)], [MOST_COUNT])


if __name__ == "__main__":
    unittest.main()
