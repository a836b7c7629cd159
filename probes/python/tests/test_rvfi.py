"""The adapter of the RISC-V Formal Interface: its records row by row, its refusals, and verdicts of runs.

The rows are written down with what the interface's documentation says a core shows; the records are those of
docs/PROBE-FORMAT.md for them.
"""

from __future__ import annotations

import io
import unittest
from typing import Dict, List, Sequence

from difftest_probes import Atomic, Commit, Drain, Load, Record, Store, Trap, check
from difftest_probes.isa import assembler as asm
from difftest_probes.rvfi import NEEDED, Adapter, RowError, bytes_of, first_of, rows_of

from .support import CommandCase

TRAPS = ("csr_mcause_rdata", "csr_mtval_rdata", "csr_scause_rdata", "csr_stval_rdata")
PC = 0x80000000
DATA = 0x80001008
LOAD = asm.load(8, True, 7, 5, 8)


def table(rows: Sequence[Dict[str, int]], *more: str, prefix: str = "rvfi_") -> str:
    """A CSV file of rows, in which what is not said is 0, and mode 3."""
    names = [*NEEDED, *more]
    lines = [",".join("cycle" if name == "cycle" else prefix + name for name in names)]
    for row in rows:
        full = {"mode": 3, **row}
        cells = [f"{full.get(n, 0):x}" if n != "cycle" else str(full.get(n, 0)) for n in names]
        lines.append(",".join(cells))
    return "\n".join(lines) + "\n"


def at(place: int, insn: int, **values: int) -> Dict[str, int]:
    """A row of the instruction at a place, in the cycle of its number."""
    pc = PC + 4 * place
    return {"cycle": 10 + place, "insn": insn, "pc_rdata": pc, "pc_wdata": pc + 4, **values}


class AdapterCase(unittest.TestCase):
    """Rows and their records."""

    def records(self, rows: Sequence[Dict[str, int]], *more: str) -> List[Record]:
        """The records of a table of rows."""
        self.adapter = Adapter()
        return list(self.adapter.records(rows_of(io.StringIO(table(rows, *more)))))

    def refuses(self, text: str, words: str) -> None:
        """The adapter refuses the text with these words."""
        with self.assertRaisesRegex(RowError, words):
            list(Adapter().records(rows_of(io.StringIO(text))))


class Records(AdapterCase):
    """What becomes of a row."""

    def test_masks(self) -> None:
        self.assertEqual([first_of(mask) for mask in (0, 1, 0xF0, 0x80)], [0, 0, 4, 7])
        self.assertEqual(bytes_of(0x1122334455667788, 0x0F), 0x55667788)
        self.assertEqual(bytes_of(0x1122334455667788, 0xC0), 0x1122)

    def test_a_commit(self) -> None:
        addi = asm.addi(5, 0, 7)
        found = self.records([at(0, addi, rd_addr=5, rd_wdata=7), at(1, asm.addi(0, 0, 7), rd_wdata=7)])
        self.assertEqual(found[0], Commit(0, 10, PC, addi, 7))
        # x0 is given nothing, whatever the interface shows.
        self.assertEqual(found[1], Commit(0, 11, PC + 4, asm.addi(0, 0, 7), 0))

    def test_a_load(self) -> None:
        load = asm.load(2, True, 5, 6, 0)
        seen = {"mem_addr": DATA, "mem_rmask": 3, "mem_rdata": 0x8001}
        found = self.records([at(0, load, rd_addr=5, rd_wdata=0xFFFFFFFFFFFF8001, **seen)])
        self.assertEqual(found, [Load(0, 10, PC, load, 0xFFFFFFFFFFFF8001, 10, DATA)])

    def test_loads_into_x0(self) -> None:
        seen = {"mem_addr": DATA, "mem_rmask": 3, "mem_rdata": 0x12348001}
        rows = [at(0, asm.load(2, True, 0, 6, 0), **seen), at(1, asm.load(2, False, 0, 6, 0), **seen)]
        found = [record.value for record in self.records(rows) if isinstance(record, Load)]
        self.assertEqual(found, [0xFFFFFFFFFFFF8001, 0x8001])

    def test_a_mask_that_counts_from_an_aligned_address(self) -> None:
        load = asm.load(2, False, 5, 6, 0)
        seen = {"mem_addr": DATA, "mem_rmask": 0x30, "mem_rdata": 0x8001 << 32}
        found = self.records([at(0, load, rd_addr=5, rd_wdata=0x8001, **seen)])
        self.assertEqual(found, [Load(0, 10, PC, load, 0x8001, 10, DATA + 4)])

    def test_a_store_drains_at_once(self) -> None:
        store = asm.store(4, 5, 6, 0)
        found = self.records([at(0, store, mem_addr=DATA, mem_wmask=15, mem_wdata=0x99AABBCCDD)])
        line = bytes(8) + b"\xdd\xcc\xbb\xaa" + bytes(52)
        wanted = [Store(0, 10, PC, store, DATA, 0xAABBCCDD), Drain(0, 10, DATA - 8, 0xF00, 1, line)]
        self.assertEqual(found, wanted)

    def test_a_store_to_a_device_has_no_drain(self) -> None:
        store = asm.store(1, 5, 6, 0)
        found = self.records([at(0, store, mem_addr=0x10000000, mem_wmask=1, mem_wdata=0x41)])
        self.assertEqual(found, [Store(0, 10, PC, store, 0x10000000, 0x41)])

    def test_stores_that_no_instruction_makes_have_no_drain(self) -> None:
        store = asm.store(4, 5, 6, 0)
        wide = at(0, store, mem_addr=DATA, mem_wmask=0xFF, mem_wdata=0x1122334455667788)
        self.assertEqual(self.records([wide]), [Store(0, 10, PC, store, DATA, 0x1122334455667788)])
        odd = at(0, store, mem_addr=DATA + 2, mem_wmask=15, mem_wdata=1)
        self.assertEqual(self.records([odd]), [Store(0, 10, PC, store, DATA + 2, 1)])

    def test_atomics_into_x0(self) -> None:
        lr, sc = asm.atomic("lr", 4, 0, 6), asm.atomic("sc", 4, 0, 6, 7)
        rows = [at(0, lr, mem_addr=DATA, mem_rmask=15, mem_rdata=1 << 31), at(1, sc, mem_addr=DATA)]
        rows.append(at(2, sc, mem_addr=DATA, mem_wmask=15, mem_wdata=3))
        found = [record.value for record in self.records(rows) if isinstance(record, Atomic)]
        self.assertEqual(found, [0xFFFFFFFF80000000, 1, 0])

    def test_the_physical_address_counts(self) -> None:
        store = asm.store(1, 5, 6, 0)
        row = at(0, store, mem_addr=0x40000000, mem_paddr=0x10000000, mem_wmask=1, mem_wdata=0x41)
        self.assertEqual(self.records([row], "mem_paddr"), [Store(0, 10, PC, store, 0x10000000, 0x41)])

    def test_atomics(self) -> None:
        lr, sc = asm.atomic("lr", 4, 5, 6), asm.atomic("sc", 4, 5, 6, 7)
        amo = asm.atomic("swap", 8, 0, 6, 7)
        rows = [
            at(0, lr, mem_addr=DATA, mem_rmask=15, mem_rdata=1 << 31, rd_addr=5, rd_wdata=0xFFFFFFFF80000000),
            at(1, sc, mem_addr=DATA, mem_wmask=15, mem_wdata=9, rd_addr=5),
            at(2, sc, mem_addr=DATA, rd_addr=5, rd_wdata=1),
            at(3, amo, mem_addr=DATA, mem_rmask=0xFF, mem_rdata=9, mem_wmask=0xFF, mem_wdata=2),
        ]
        wanted = [
            Atomic(0, 10, PC, lr, 0xFFFFFFFF80000000, DATA, 4, 0, 0),
            Atomic(0, 11, PC + 4, sc, 0, DATA, 4, 1, 9),
            Atomic(0, 12, PC + 8, sc, 1, DATA, 4, 0, 0),
            Atomic(0, 13, PC + 12, amo, 9, DATA, 8, 1, 2),
        ]
        self.assertEqual(self.records(rows), wanted)

    def test_atomics_on_the_upper_word_of_a_doubleword(self) -> None:
        amo, lr = asm.atomic("add", 4, 5, 6, 7), asm.atomic("lr", 4, 5, 6)
        sc, old = asm.atomic("sc", 4, 5, 6, 7), 0xFFFFFFFF80000000
        read = {"rd_addr": 5, "rd_wdata": old, "mem_rmask": 0xF0, "mem_rdata": 1 << 63}
        wrote = {"mem_wmask": 0xF0, "mem_wdata": 3 << 32 | 1}
        rows = [
            at(0, amo, mem_addr=DATA, **read, **wrote),
            at(1, lr, mem_addr=DATA, **read),
            at(2, sc, mem_addr=DATA, rd_addr=5, **wrote),
        ]
        wanted = [
            Atomic(0, 10, PC, amo, old, DATA + 4, 4, 1, 3),
            Atomic(0, 11, PC + 4, lr, old, DATA + 4, 4, 0, 0),
            Atomic(0, 12, PC + 8, sc, 0, DATA + 4, 4, 1, 3),
        ]
        self.assertEqual(self.records(rows), wanted)

    def test_rows_that_are_not_valid_are_left_out(self) -> None:
        nop = asm.addi(0, 0, 0)
        rows = [at(0, nop, valid=1), {"cycle": 3}, at(1, nop, valid=1)]
        self.assertEqual([record.stamp for record in self.records(rows, "valid")], [10, 11])


class Traps(AdapterCase):
    """Traps, of which the handler's first row has the cause."""

    HANDLER = at(16, asm.addi(0, 0, 0), intr=1)

    def trap(self, row: Dict[str, int], **values: int) -> Record:
        """The record of the trap between a row and the handler's first."""
        return self.records([row, {**self.HANDLER, **values}], *TRAPS)[-2]

    def test_an_exception(self) -> None:
        row = at(0, asm.ECALL, trap=1, pc_wdata=PC + 64)
        found = self.trap(row, csr_mcause_rdata=11, csr_scause_rdata=5)
        self.assertEqual(found, Trap(0, 26, PC, asm.ECALL, 11, 0))
        self.assertEqual(len(self.records([row, self.HANDLER], *TRAPS)), 2)

    def test_the_mode_of_the_handler_chooses_the_registers(self) -> None:
        row = at(0, asm.load(8, True, 5, 6, 0), trap=1, mode=0)
        found = self.trap(row, mode=1, csr_scause_rdata=13, csr_stval_rdata=0x1000, csr_mcause_rdata=7)
        self.assertEqual(found, Trap(0, 26, PC, row["insn"], 13, 0x1000))

    def test_an_interrupt_has_the_pc_that_did_not_retire(self) -> None:
        cause = 1 << 63 | 7
        found = self.trap(at(0, asm.addi(5, 0, 7), rd_addr=5, rd_wdata=7), csr_mcause_rdata=cause)
        self.assertEqual(found, Trap(0, 26, PC + 4, 0, cause, 0))

    def test_a_fetch_that_failed_has_what_was_fetched(self) -> None:
        row = at(0, 0x12345673, trap=1)
        self.assertEqual(self.trap(row, csr_mcause_rdata=12, csr_mtval_rdata=PC), Trap(0, 26, PC, 0, 12, PC))
        found = self.trap(row, csr_mcause_rdata=12, csr_mtval_rdata=PC + 2)
        self.assertEqual(found, Trap(0, 26, PC, 0x5673, 12, PC + 2))

    def test_a_handler_that_is_not_marked(self) -> None:
        nop = asm.addi(0, 0, 0)
        rows = [at(0, asm.ECALL, trap=1), at(16, nop, csr_mcause_rdata=11), at(17, nop, csr_mcause_rdata=11)]
        found = self.records(rows, *TRAPS)
        self.assertEqual([record.kind for record in found], ["Trap", "Commit", "Commit"])

    def test_an_interrupt_that_took_an_instructions_place(self) -> None:
        cause = 1 << 63 | 5
        found = self.trap(at(0, asm.addi(5, 0, 7), trap=1), csr_mcause_rdata=cause)
        self.assertEqual(found, Trap(0, 26, PC, 0, cause, 0))

    def test_a_trap_at_the_end_is_left_out(self) -> None:
        self.assertEqual(self.records([at(0, asm.ECALL, trap=1)], *TRAPS), [])
        self.assertTrue(self.adapter.left)

    def test_a_handler_without_a_trap(self) -> None:
        rows = [at(0, asm.addi(0, 0, 0)), {**self.HANDLER, "csr_mcause_rdata": 11}]
        self.refuses(table(rows, *TRAPS), "row 3: a handler begins with cause b")

    def test_no_column_for_the_cause(self) -> None:
        rows = [at(0, asm.ECALL, trap=1), self.HANDLER]
        self.refuses(table(rows), "row 3: there is no column csr_mcause_rdata")


class Refusals(AdapterCase):
    """What is no interface of one hart."""

    NOP = asm.addi(0, 0, 0)

    def test_another_hart(self) -> None:
        self.refuses(table([at(0, self.NOP), at(1, self.NOP, hart=1)], "hart"), "row 3: hart 1")

    def test_an_order_with_a_gap(self) -> None:
        self.assertEqual(len(self.records([at(0, 19, order=4), at(1, 19, order=5)], "order")), 2)
        self.refuses(
            table([at(0, 19, order=4), at(1, 19, order=6)], "order"), "row 3: order 6 comes behind 4"
        )
        self.refuses(
            table([at(0, 19, order=4), at(1, 19, order=4)], "order"), "row 3: order 4 comes behind 4"
        )

    def test_cycles_that_fall(self) -> None:
        self.refuses(table([at(1, self.NOP), at(0, self.NOP)]), "row 3: cycle 10 comes behind 11")

    def test_each_column_that_is_missing(self) -> None:
        text = table([at(0, self.NOP)])
        for name in NEEDED:
            with self.subTest(name):
                spelled = name if name == "cycle" else "rvfi_" + name
                self.refuses(text.replace(spelled, "other", 1), f"row 1: there is no column {name}")

    def test_cells(self) -> None:
        text = table([at(0, self.NOP)])
        self.refuses(text.replace("10,", "ten,", 1), "row 2: cycle is 'ten'")
        self.refuses(text.replace("10,", "", 1), "row 2: it has 13 cells")
        self.refuses("", "row 1: there is no column cycle")


class Verdicts(CommandCase):
    """Whole runs: a program of eight instructions and a handler, on a core of one hart."""

    def rows(self) -> List[Dict[str, int]]:
        """What a good core shows of it."""
        handler = PC + 32
        return [
            at(0, asm.upper(5, 1, True), rd_addr=5, rd_wdata=PC + 0x1000),
            at(1, asm.addi(6, 0, 42), rd_addr=6, rd_wdata=42),
            at(2, asm.store(8, 6, 5, 8), mem_addr=DATA, mem_wmask=0xFF, mem_wdata=42),
            at(3, LOAD, rd_addr=7, rd_wdata=42, mem_addr=DATA, mem_rmask=0xFF, mem_rdata=42),
            at(4, asm.upper(28, 0, True), rd_addr=28, rd_wdata=PC + 16),
            at(5, asm.addi(28, 28, 16), rd_addr=28, rd_wdata=handler),
            at(6, asm.csr("write", 0x305, 0, 28)),
            at(7, asm.ECALL, trap=1, pc_wdata=handler),
            at(8, asm.addi(0, 0, 0), intr=1, csr_mcause_rdata=11),
        ]

    def verdict(self, rows: Sequence[Dict[str, int]]) -> str:
        """PASS, or key, reason, expected and found of the FAIL."""
        code = b"".join(row["insn"].to_bytes(4, "little") for row in rows)
        image = self.put("run.image", code)
        source = self.put("run.csv", table(rows, *TRAPS).encode())
        status, said = self.run_command("from-rvfi", source, self.path("run.probes"))
        self.assertEqual(status, 0, self.said)
        self.assertIn("11 Order, 15 Undrained, 18 Refill, 20 DrainCount, 21 DrainData,", said)
        report = check(image, self.path("run.probes"), program=self.program)
        failure = report.failure
        return f"{failure.key} {failure.reason} {failure.expected:x} {failure.found:x}" if failure else "PASS"

    def test_a_good_core(self) -> None:
        self.assertEqual(self.verdict(self.rows()), "PASS")

    def test_faults(self) -> None:
        for place, values, wanted in (
            (1, {"rd_wdata": 43}, "11.0.1 8 2a 2b"),
            (2, {"mem_wdata": 40}, "12.0.2 10 2a 28"),
            (3, {"rd_wdata": 41}, "13.0.4 12 2a 29"),
            (3, {"mem_addr": DATA + 8}, "13.0.4 9 80001008 80001010"),
            (4, {"pc_rdata": PC + 20}, "14.0.5 1 80000010 80000014"),
            (8, {"csr_mcause_rdata": 8}, "18.0.8 5 b 8"),
        ):
            rows = self.rows()
            rows[place] = {**rows[place], **values}
            with self.subTest(place=place, values=values):
                self.assertEqual(self.verdict(rows), wanted)

    def test_a_refusal_leaves_no_file(self) -> None:
        source = self.put("run.csv", b"cycle,insn\n")
        status, _ = self.run_command("from-rvfi", source, self.path("run.probes"))
        self.assertEqual(status, 2)
        self.assertIn("row 1: there is no column trap", self.said)
        with self.assertRaises(FileNotFoundError):
            self.get("run.probes")


if __name__ == "__main__":
    unittest.main()
