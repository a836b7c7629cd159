"""Makes a probe file of a core's RISC-V Formal Interface, for a core of one hart without probes.

The input is CSV: a row with the names of the columns, then one row for each instruction that retired or
trapped, in order. The columns are the signals of the interface, with or without rvfi_ before the name. cycle,
order and hart are decimal, all others hexadecimal.

needed: cycle, insn, trap, intr, mode, rd_addr, rd_wdata, pc_rdata, pc_wdata, mem_addr, mem_rmask, mem_wmask,
  mem_rdata, mem_wdata
where a trap is taken: csr_mcause_rdata and csr_mtval_rdata, or csr_scause_rdata and csr_stval_rdata, with
  what the handler's first instruction finds in them
where addresses are translated: mem_paddr, the physical address of the access
may be there: valid (rows with 0 are left out), order (has to count up), hart (has to be 0)

An SC that fails, and an atomic of any kind, has its address in mem_addr or mem_paddr. insn is as it was
fetched; mode is that of the instruction. Other columns are not looked at.
"""

from __future__ import annotations

import argparse
from typing import Iterator

from ..outputs import replacing
from ..rvfi import PHYSICAL, Adapter, Row, rows_of
from ..writer import Writer

DERIVED = """derived: the cycle in which a load reads (its retirement), and the drains (each store at once)
so these can never be the reason of a FAIL: 11 Order, 15 Undrained, 18 Refill, 20 DrainCount, 21 DrainData,
    22 Barrier, 23 State"""


class _Columns:
    """Notes which columns the rows have."""

    def __init__(self) -> None:
        self.has_physical = False

    def noted(self, rows: Iterator[Row]) -> Iterator[Row]:
        """The same rows."""
        for row in rows:
            self.has_physical = PHYSICAL in row.values
            yield row


def add_words(parser: argparse.ArgumentParser) -> None:
    """The words of the command."""
    parser.add_argument("csv", help="what the interface showed")
    parser.add_argument("output", help="the probe file to write")


def run(words: argparse.Namespace) -> int:
    """Writes the probe file, and says what is derived."""
    adapter, columns = Adapter(), _Columns()
    with open(words.csv, encoding="ascii", errors="replace", newline="") as source:
        with replacing(words.output) as out, Writer(out, harts=1) as writer:
            for record in adapter.records(columns.noted(rows_of(source))):
                writer.write(record)
    print(f"{words.output}: {writer.count} records")
    print(DERIVED)
    if not columns.has_physical:
        print(f"note: without {PHYSICAL} an access whose address is translated fails as 9 Address")
    if adapter.left:
        print("note: the last row trapped, and no handler shows its cause: it is left out")
    return 0
