"""What a run has exercised: counts over its records and its report, and which checks were never asked.

A count of `asked` is the number of records at which the check of a reason was made with something that
could have failed. A reason that was asked at no record could not come, so that a PASS says nothing of it.
"""

from __future__ import annotations

from collections import Counter
from typing import Dict, Iterable, Iterator, List, Optional, Tuple

from .isa import csrs
from .isa.compressed import meaning_of
from .isa.decoding import Instruction
from .isa.fields import MACHINE, SUPERVISOR
from .isa.names import mnemonic
from .isa.walking import View
from .reasons import REASONS
from .records import (
    RETIRED,
    Atomic,
    Commit,
    Csrs,
    Drain,
    Key,
    Load,
    Record,
    Refill,
    Regs,
    Store,
    Trap,
    in_ram,
    keyed,
)
from .report import LETTERS, Note, OwnStore, Report
from .shadow import ShadowHart

MODES = {MACHINE: "M", SUPERVISOR: "S", 0: "U"}
COUNTED = (
    "instructions",
    "compressed",
    "causes",
    "modes",
    "fetches",
    "accesses",
    "letters",
    "sources",
    "asked",
)


class Coverage:
    """Counts by group and name."""

    def __init__(self) -> None:
        self.groups: Dict[str, Counter[str]] = {name: Counter() for name in COUNTED}
        self.files = 0
        self.records = 0

    def add(self, group: str, name: str, count: int = 1) -> None:
        """Counts something."""
        self.groups[group][name] += count

    def merge(self, other: Dict[str, object]) -> None:
        """Adds what `as_data` gave for other files."""
        for name, value in other.items():
            if name in self.groups and isinstance(value, dict):
                self.groups[name].update(value)
        self.files += _whole(other.get("files"))
        self.records += _whole(other.get("records"))

    def as_data(self) -> Dict[str, object]:
        """The counts as JSON has them; `never` is made of `asked` alone."""
        data: Dict[str, object] = {"files": self.files, "records": self.records}
        data.update({name: dict(sorted(counts.items())) for name, counts in self.groups.items()})
        data["never"] = self.never()
        return data

    def never(self) -> List[str]:
        """The reasons that could not come."""
        return [name for name in REASONS if not self.groups["asked"][name]]


def _whole(value: object) -> int:
    return value if isinstance(value, int) else 0


def _translation(view: View) -> str:
    if not view.on:
        return "bare"
    return "Sv39" if view.levels == 3 else "Sv48"


class _HartCoverage:
    """What of a hart's past decides which checks a record asks."""

    def __init__(self, hart: int, wide: bool, coverage: Coverage) -> None:
        self._shadow = ShadowHart(hart, wide)
        self._coverage = coverage
        self._has_stored = False
        self._has_read = False
        # Whether a later load from RAM has a cycle that it may not be below, or stores to wait for.
        self._orders_loads = False
        self._divides_stores = False

    def _ask(self, *names: str) -> None:
        for name in names:
            self._coverage.add("asked", name)

    def take(self, record: Record) -> None:
        """Counts a record, and goes on by it."""
        if isinstance(record, RETIRED):
            self._retire(record)
        elif isinstance(record, Trap):
            self._trap(record)
        elif isinstance(record, Drain):
            self._ask("DrainCount", "DrainData")
            if self._divides_stores:
                self._ask("Barrier")
        elif isinstance(record, Refill):
            self._ask("Refill")
        elif isinstance(record, (Regs, Csrs)):
            self._ask("State")
        self._shadow.take(record)

    def _trap(self, record: Trap) -> None:
        self._ask("Pc", "Tval")
        if record.is_interrupt:
            self._coverage.add("causes", f"interrupt {record.cause & 63}")
            self._ask("Interrupt")
        else:
            self._coverage.add("causes", f"exception {record.cause}")
            self._ask("Cause")
            if record.bits:
                self._ask("Fetch")

    def _retire(self, record: Record) -> None:
        assert isinstance(record, RETIRED)
        instruction = meaning_of(record.bits)
        self._ask("Pc", "Fetch", "Raises", "Kind")
        self._coverage.add("modes", MODES.get(self._shadow.mode, "none"))
        self._coverage.add("fetches", _translation(self._shadow.fetch_view()))
        name = mnemonic(instruction) if instruction else "none"
        self._coverage.add("instructions", name)
        if record.bits & 3 != 3:
            self._coverage.add("compressed", name)
        if isinstance(record, (Load, Store, Atomic)):
            is_load = isinstance(record, Load) or name.startswith("lr.")
            self._coverage.add("accesses", _translation(self._shadow.access_view(is_load)))
            self._ask("Address")
        if isinstance(record, Load):
            self._load(record)
        elif isinstance(record, Store):
            self._ask("StoreData")
            self._has_stored = self._has_stored or in_ram(record.paddr)
        elif isinstance(record, Atomic):
            self._atomic(record, instruction)
        elif isinstance(record, Commit) and instruction:
            self._commit(instruction)

    def _load(self, record: Load) -> None:
        if not in_ram(record.paddr):
            self._ask("Adopt")
            return
        if self._orders_loads:
            self._ask("Order")
        self._ask("LoadSource")
        self._has_read = True

    def _atomic(self, record: Atomic, instruction: Optional[Instruction]) -> None:
        self._ask("AtomicValue", "AtomicWrite")
        if self._has_stored:
            self._ask("Undrained")
        is_conditional = instruction is not None and instruction.op == "sc"
        if is_conditional and record.wrote:
            self._ask("ScSuccess")
        if not is_conditional:
            self._has_read = True
        if instruction is not None and instruction.aq and not (is_conditional and not record.wrote):
            self._orders_loads = True

    def _commit(self, instruction: Instruction) -> None:
        if instruction.group == "csr" and instruction.rd:
            if instruction.number in csrs.COUNTERS:
                self._ask("Counter")
                return
            if instruction.number in (csrs.MIP, csrs.SIP):
                self._ask("Adopt")
                return
        self._ask("Value")
        if instruction.group in ("fence_i", "sfence") and self._has_stored:
            self._ask("Undrained")
        if instruction.group == "fence":
            self._fence(instruction)

    def _fence(self, instruction: Instruction) -> None:
        before, after = instruction.rs1, instruction.rs2
        is_total_store_order = instruction.imm == 8 and (before & 3, after & 3) == (3, 3)
        writes_before_reads = before & 1 and after & 2 and not is_total_store_order
        if before & 2 and after & 2 and self._has_read or writes_before_reads and self._has_stored:
            self._orders_loads = True
        if before & 1 and after & 1 and self._has_stored:
            self._divides_stores = True


def _sources(note: Note) -> Iterator[str]:
    """What sorts of sources a note names."""
    sorts = set()
    for run in note.runs:
        if run.source is None:
            sorts.add("image")
        elif isinstance(run.source, OwnStore):
            sorts.add("own store, forwarded")
        else:
            sorts.add("own write" if run.source.hart == note.key.hart else "another hart's write")
    yield from sorts
    if len(sorts) > 1:
        yield "several in one access"


def _judged(records: Iterable[Record], report: Report) -> Iterator[Tuple[Key, Record]]:
    """The records that the report counts, and the failing one."""
    for key, record in keyed(records):
        if report.failure is None or key <= report.failure.key:
            yield key, record


def cover(coverage: Coverage, records: Iterable[Record], report: Report, wide: bool) -> None:
    """Adds a run to the counts."""
    harts: Dict[int, _HartCoverage] = {}
    for key, record in _judged(records, report):
        if key.hart not in harts:
            harts[key.hart] = _HartCoverage(key.hart, wide, coverage)
        harts[key.hart].take(record)
        coverage.records += 1
    for letter, count in zip(LETTERS, report.letters):
        coverage.add("letters", letter, count)
    for note in report.notes:
        for sort in _sources(note):
            coverage.add("sources", sort)
    coverage.files += 1
