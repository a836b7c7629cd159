"""What a FAIL may come from that is no fault of the design: a program or a core outside the profile, or a
probe that reports something else than it should."""

from __future__ import annotations

from typing import Iterator

from .profile import finding_of
from .records import RAM_END, RAM_START, Atomic, Drain, Load, Record, Store, Trap
from .report import Failure

_MISALIGNED = (4, 6)


def _of_instruction(record: Record) -> Iterator[str]:
    bits = getattr(record, "bits", 0)
    finding = finding_of(bits) if bits else None
    if finding:
        yield finding.text


def _of_pc(failure: Failure, record: Record) -> Iterator[str]:
    if failure.key.seq == 0 and failure.expected == RAM_START:
        yield "every hart begins at 80000000: the records begin with its first instruction there, behind a boot ROM"
    if isinstance(record, Trap) and record.is_interrupt:
        yield "the pc of an interrupt's Trap is what mepc or sepc gets: of the instruction that did not retire"


def _of_probe(failure: Failure, record: Record) -> Iterator[str]:
    """What a probe often reports wrongly."""
    if failure.name == "Fetch" and not isinstance(record, Trap):
        yield "bits are those that were fetched: a 16-bit instruction is not reported as its expansion"
    if failure.name == "Raises" and failure.expected in _MISALIGNED:
        yield "misaligned accesses trap in the profile: compile with -mstrict-align"
    if isinstance(record, Drain) and failure.name == "DrainCount" and failure.expected == 0:
        yield "a Drain stands behind the Stores that it takes, also where they share a cycle"


def hints(failure: Failure, record: Record) -> Iterator[str]:
    """What is to be looked at before the design."""
    yield from _of_instruction(record)
    if failure.name == "Pc":
        yield from _of_pc(failure, record)
    yield from _of_probe(failure, record)
    if isinstance(record, (Load, Store, Atomic)) and record.paddr >= RAM_END:
        yield "there is no memory at this address: RAM is 80000000 to 83ffffff, and devices are below it"
