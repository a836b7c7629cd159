"""Probe records: a frozen dataclass for each kind, and their order.

A record says what one hart did in one cycle. The fields of a class stand in the order of the file, and
`numbers` says how many bytes each number has there. docs/PROBE-FORMAT.md says what the fields mean.
"""

from __future__ import annotations

from dataclasses import dataclass
from typing import ClassVar, Dict, Iterable, Iterator, NamedTuple, Tuple, Type

RAM_START = 0x8000_0000
RAM_END = 0x8400_0000
LINE_BYTES = 64
MOST_HARTS = 8
MOST_RECORDS = 4_194_304
MOST_WRITES = 1_048_576
MOST_IMAGE_BYTES = 16_777_216
INTERRUPT_FLAG = 1 << 63

CSR_NAMES = (
    "mstatus",
    "medeleg",
    "mideleg",
    "mie",
    "mtvec",
    "mcounteren",
    "mscratch",
    "mepc",
    "mcause",
    "mtval",
    "stvec",
    "scounteren",
    "sscratch",
    "sepc",
    "scause",
    "stval",
    "satp",
)

Layout = Tuple[Tuple[str, int], ...]


class Key(NamedTuple):
    """The place of a record among all records: difftest orders every event by it."""

    stamp: int
    hart: int
    seq: int

    def __str__(self) -> str:
        return f"{self.stamp}.{self.hart}.{self.seq}"

    @staticmethod
    def of(text: str) -> Key:
        """The key that `stamp.hart.seq` spells."""
        stamp, hart, seq = text.split(".")
        return Key(int(stamp), int(hart), int(seq))


@dataclass(frozen=True)
class Record:
    """What every record has: the hart, and the cycle as its stamp."""

    kind: ClassVar[str]
    tag: ClassVar[int]
    # The name and the bytes of each number after hart and stamp, in the order of the file.
    numbers: ClassVar[Layout]

    hart: int
    stamp: int

    def values(self) -> Tuple[int, ...]:
        """The numbers after hart and stamp, in the order of the file."""
        return tuple(getattr(self, name) for name, _ in self.numbers)

    @property
    def writes_memory(self) -> bool:
        """Whether the record changes RAM: a Drain, or an Atomic that wrote."""
        return False


@dataclass(frozen=True)
class Commit(Record):
    """A retired instruction that is no load, store or atomic."""

    kind = "Commit"
    tag = 1
    numbers = (("pc", 8), ("bits", 4), ("value", 8))

    pc: int
    bits: int
    value: int


@dataclass(frozen=True)
class Trap(Record):
    """An exception or interrupt that was taken."""

    kind = "Trap"
    tag = 2
    numbers = (("pc", 8), ("bits", 4), ("cause", 8), ("tval", 8))

    pc: int
    bits: int
    cause: int
    tval: int

    @property
    def is_interrupt(self) -> bool:
        """Whether the cause is that of an interrupt."""
        return bool(self.cause & INTERRUPT_FLAG)


@dataclass(frozen=True)
class Regs(Record):
    """The pc of the next instruction, and the registers x1 to x31."""

    kind = "Regs"
    tag = 3
    numbers = (("pc", 8),) + tuple((f"x{number}", 8) for number in range(1, 32))

    pc: int
    x: Tuple[int, ...]

    def values(self) -> Tuple[int, ...]:
        return (self.pc, *self.x)


@dataclass(frozen=True)
class Csrs(Record):
    """The mode and the 17 registers of CSR_NAMES."""

    kind = "Csrs"
    tag = 4
    numbers = (("mode", 1),) + tuple((name, 8) for name in CSR_NAMES)

    mode: int
    v: Tuple[int, ...]

    def values(self) -> Tuple[int, ...]:
        return (self.mode, *self.v)


@dataclass(frozen=True)
class Load(Record):
    """A retired load; `at` is the cycle in which it read."""

    kind = "Load"
    tag = 5
    numbers = (("pc", 8), ("bits", 4), ("value", 8), ("at", 8), ("paddr", 8))

    pc: int
    bits: int
    value: int
    at: int
    paddr: int


@dataclass(frozen=True)
class Store(Record):
    """A retired store."""

    kind = "Store"
    tag = 6
    numbers = (("pc", 8), ("bits", 4), ("paddr", 8), ("value", 8))

    pc: int
    bits: int
    paddr: int
    value: int


@dataclass(frozen=True)
class Atomic(Record):
    """A retired LR, SC or AMO."""

    kind = "Atomic"
    tag = 7
    numbers = (
        ("pc", 8),
        ("bits", 4),
        ("value", 8),
        ("paddr", 8),
        ("width", 1),
        ("wrote", 1),
        ("new", 8),
    )

    pc: int
    bits: int
    value: int
    paddr: int
    width: int
    wrote: int
    new: int

    @property
    def writes_memory(self) -> bool:
        return self.wrote == 1


@dataclass(frozen=True)
class Drain(Record):
    """The bytes of a line that left the store buffer, with how many stores they come from."""

    kind = "Drain"
    tag = 8
    numbers = (("line", 8), ("mask", 8), ("count", 2))

    line: int
    mask: int
    count: int
    content: bytes

    @property
    def writes_memory(self) -> bool:
        return True


@dataclass(frozen=True)
class Refill(Record):
    """A line as the cache took it in."""

    kind = "Refill"
    tag = 9
    numbers = (("line", 8),)

    line: int
    content: bytes


@dataclass(frozen=True)
class Beat(Record):
    """The hart has reached this cycle."""

    kind = "Beat"
    tag = 10
    numbers = ()


KINDS: Tuple[Type[Record], ...] = (
    Commit,
    Trap,
    Regs,
    Csrs,
    Load,
    Store,
    Atomic,
    Drain,
    Refill,
    Beat,
)
KIND_OF_TAG: Dict[int, Type[Record]] = {kind.tag: kind for kind in KINDS}
RETIRED = (Commit, Load, Store, Atomic)


def in_ram(address: int, width: int = 1) -> bool:
    """Whether so many bytes from the address on lie in RAM."""
    return RAM_START <= address and address + width <= RAM_END


def line_of(address: int) -> int:
    """The first address of the line that holds the byte."""
    return address - address % LINE_BYTES


def record_of(kind: Type[Record], hart: int, stamp: int, values: Tuple[int, ...]) -> Record:
    """The record of a kind without content from its numbers, in the order of the file."""
    if kind is Regs:
        return Regs(hart, stamp, values[0], values[1:])
    if kind is Csrs:
        return Csrs(hart, stamp, values[0], values[1:])
    return kind(hart, stamp, *values)


def keyed(records: Iterable[Record]) -> Iterator[Tuple[Key, Record]]:
    """The records with their keys: seq counts the records of each hart."""
    counts: Dict[int, int] = {}
    for record in records:
        seq = counts.get(record.hart, 0)
        counts[record.hart] = seq + 1
        yield Key(record.stamp, record.hart, seq), record
