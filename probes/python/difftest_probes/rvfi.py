"""Records from the RISC-V Formal Interface: one row for each instruction that a core of one hart retired.

The interface does not say when a load read its bytes, nor when a store reached memory. Each load is taken to
read in the cycle in which it retires, and each store to drain there. With a second hart such drains would
make good loads fail, so there is none. The cause and tval of a trap are those that the first instruction of
its handler finds in the registers of its mode.
"""

from __future__ import annotations

import csv
from dataclasses import dataclass
from typing import Dict, Iterable, Iterator, List, Optional, TextIO

from .isa.compressed import meaning_of
from .isa.decoding import Instruction
from .isa.fields import FETCH_ACCESS, FETCH_PAGE, INTERRUPT_FLAG, MACHINE, sign_extend, wrap
from .records import LINE_BYTES, Atomic, Commit, Drain, Load, Record, Store, Trap, in_ram, line_of
from .writer import ProbeError

PREFIX = "rvfi_"
# These stand in decimal, all others in hexadecimal.
DECIMAL = ("cycle", "order", "hart")
NEEDED = (
    "cycle",
    "insn",
    "trap",
    "intr",
    "mode",
    "rd_addr",
    "rd_wdata",
    "pc_rdata",
    "pc_wdata",
    "mem_addr",
    "mem_rmask",
    "mem_wmask",
    "mem_rdata",
    "mem_wdata",
)
PHYSICAL = "mem_paddr"
# By the mode of the handler: what it finds as its cause and tval.
CAUSES = {True: ("csr_mcause_rdata", "csr_mtval_rdata"), False: ("csr_scause_rdata", "csr_stval_rdata")}
OPTIONAL = ("valid", "order", "hart", PHYSICAL, *CAUSES[True], *CAUSES[False])


class RowError(ProbeError):
    """A row that no core of one hart can give. Rows are counted from 1, that of the names."""

    def __init__(self, number: int, what: str) -> None:
        super().__init__(f"row {number}: {what}")


@dataclass(frozen=True)
class Row:
    """The numbers of a row by the names of their columns, without the prefix."""

    number: int
    values: Dict[str, int]

    def __getitem__(self, name: str) -> int:
        if name not in self.values:
            raise RowError(self.number, f"there is no column {name}")
        return self.values[name]


def _number_of(number: int, name: str, text: str) -> int:
    try:
        return int(text, 10 if name in DECIMAL and not text.lower().startswith("0x") else 16)
    except ValueError:
        raise RowError(number, f"{name} is {text!r}, and no number") from None


def rows_of(source: TextIO) -> Iterator[Row]:
    """The valid rows of a CSV file, the first of which has the names of the columns."""
    table = csv.reader(source)
    names = [name.strip().lower() for name in next(table, [])]
    names = [name[len(PREFIX) :] if name.startswith(PREFIX) else name for name in names]
    missing = [name for name in NEEDED if name not in names]
    if missing:
        raise RowError(1, f"there is no column {missing[0]}")
    places = [(place, name) for place, name in enumerate(names) if name in (*NEEDED, *OPTIONAL)]
    for number, cells in enumerate(table, 2):
        if not cells:
            continue
        if len(cells) != len(names):
            raise RowError(number, f"it has {len(cells)} cells, and there are {len(names)} columns")
        values = {name: _number_of(number, name, cells[place].strip()) for place, name in places}
        if values.get("valid", 1):
            yield Row(number, values)


def checked(rows: Iterable[Row]) -> Iterator[Row]:
    """The rows, which have to be those of hart 0 alone, in order and without a gap."""
    last: Optional[Row] = None
    for row in rows:
        if row.values.get("hart", 0):
            raise RowError(row.number, f"hart {row['hart']}: a file is made of one hart, which is 0")
        if last and row["cycle"] < last["cycle"]:
            raise RowError(row.number, f"cycle {row['cycle']} comes behind {last['cycle']}")
        if last and "order" in row.values and row["order"] != last["order"] + 1:
            what = f"order {row['order']} comes behind {last['order']}: a row is missing, or of another hart"
            raise RowError(row.number, what)
        last = row
        yield row


def first_of(mask: int) -> int:
    """The lowest byte of a mask."""
    return (mask & -mask).bit_length() - 1 if mask else 0


def bytes_of(data: int, mask: int) -> int:
    """The bytes of a mask, moved down to the lowest place."""
    lanes = sum(0xFF << 8 * place for place in range(8) if mask >> place & 1)
    return (data & lanes) >> 8 * first_of(mask)


class Adapter:
    """Makes the records of rows."""

    def __init__(self) -> None:
        self._trapped: Optional[Row] = None
        self._next_pc = 0
        # Whether the last row was a trap of which nothing tells the cause.
        self.left = False

    def records(self, rows: Iterable[Row]) -> Iterator[Record]:
        """The records of rows of one hart."""
        for row in checked(rows):
            if self._trapped or row["intr"]:
                yield self._trap(row)
                self._trapped = None
            if row["trap"]:
                self._trapped = row
            else:
                yield from _retired(row)
            self._next_pc = row["pc_wdata"]
        self.left = self._trapped is not None

    def _trap(self, row: Row) -> Trap:
        """The trap that led to the row, the first one of its handler."""
        names = CAUSES[row["mode"] == MACHINE]
        cause, tval = row[names[0]], row[names[1]]
        trapped = self._trapped
        pc = trapped["pc_rdata"] if trapped else self._next_pc
        bits = trapped["insn"] if trapped else 0
        if cause & INTERRUPT_FLAG:
            bits = 0
        elif not trapped:
            raise RowError(row.number, f"a handler begins with cause {cause:x}, and no row before it trapped")
        elif cause in (FETCH_ACCESS, FETCH_PAGE):
            # What was fetched before the fault: a halfword, or nothing.
            bits = bits & 0xFFFF if tval == wrap(pc + 2) else 0
        return Trap(0, row["cycle"], pc, bits, cause, tval)


def _retired(row: Row) -> List[Record]:
    """The records of an instruction that retired."""
    instruction = meaning_of(row["insn"])
    stamp, pc, bits = row["cycle"], row["pc_rdata"], row["insn"]
    place = row.values.get(PHYSICAL, row["mem_addr"]) + first_of(row["mem_rmask"] or row["mem_wmask"])
    value = row["rd_wdata"] if row["rd_addr"] else 0
    if instruction and instruction.group == "atomic":
        return [_atomic(row, instruction, place)]
    if row["mem_rmask"]:
        return [Load(0, stamp, pc, bits, _loaded(row, instruction), stamp, place)]
    if row["mem_wmask"]:
        stored = bytes_of(row["mem_wdata"], row["mem_wmask"])
        return [Store(0, stamp, pc, bits, place, stored), *_drain(stamp, instruction, place, stored)]
    return [Commit(0, stamp, pc, bits, value)]


def _loaded(row: Row, instruction: Optional[Instruction]) -> int:
    """What a load, LR or AMO gave: rd, or where that is x0 what memory gave, extended."""
    if row["rd_addr"]:
        return row["rd_wdata"]
    raw = bytes_of(row["mem_rdata"], row["mem_rmask"])
    is_signed = instruction is None or instruction.signed or instruction.group == "atomic"
    return sign_extend(raw, 8 * bin(row["mem_rmask"]).count("1")) if is_signed else raw


def _drain(stamp: int, instruction: Optional[Instruction], place: int, stored: int) -> Iterator[Drain]:
    """The drain of a store at once; none of a device, nor where the judge refuses the store anyway."""
    width = instruction.width if instruction and instruction.group == "store" else 0
    if not width or place % width or stored >> 8 * width or not in_ram(place, width):
        return
    line = line_of(place)
    start = place - line
    content = bytes(start) + stored.to_bytes(width, "little") + bytes(LINE_BYTES - start - width)
    yield Drain(0, stamp, line, ((1 << width) - 1) << start, 1, content)


def _atomic(row: Row, instruction: Instruction, place: int) -> Atomic:
    """The record of LR, SC or AMO."""
    wrote = row["mem_wmask"] != 0
    new = bytes_of(row["mem_wdata"], row["mem_wmask"]) if wrote else 0
    if instruction.op == "sc":
        value = row["rd_wdata"] if row["rd_addr"] else int(not wrote)
    else:
        value = _loaded(row, instruction)
    stamp, width = row["cycle"], instruction.width
    return Atomic(0, stamp, row["pc_rdata"], row["insn"], value, place, width, int(wrote), new)
