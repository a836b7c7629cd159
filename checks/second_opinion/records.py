"""Probe records: what a hart reports, which reports are lawful, and their order.

A record says what one hart did in one cycle.  Records are ordered by their
key: the cycle, then the hart, then the place among that hart's records.
"""

from dataclasses import dataclass
from typing import NamedTuple

RAM_START = 0x8000_0000
RAM_END = 0x8400_0000
LINE_BYTES = 64


class Key(NamedTuple):
    """The place of a record in the order of all records."""

    stamp: int
    hart: int
    seq: int

    def __str__(self):
        return f"{self.stamp}.{self.hart}.{self.seq}"


@dataclass
class Record:
    """One report.  Fields that its kind does not have stay at their default."""

    kind: str
    hart: int
    stamp: int
    seq: int = 0
    pc: int = 0
    bits: int = 0
    value: int = 0
    cause: int = 0
    tval: int = 0
    at: int = 0
    paddr: int = 0
    width: int = 0
    wrote: int = 0
    new: int = 0
    mode: int = 0
    line: int = 0
    mask: int = 0
    count: int = 0
    registers: tuple = ()
    data: bytes = b""

    @property
    def key(self):
        """This record's key."""
        return Key(self.stamp, self.hart, self.seq)

    @property
    def tag(self):
        """The number that stands for this record's kind in a file."""
        return TAG_OF_KIND[self.kind]


KINDS = {
    1: "Commit",
    2: "Trap",
    3: "Regs",
    4: "Csrs",
    5: "Load",
    6: "Store",
    7: "Atomic",
    8: "Drain",
    9: "Refill",
    10: "Beat",
}
TAG_OF_KIND = {kind: tag for tag, kind in KINDS.items()}

# The numbers of each kind, with their sizes in bytes, in the order of the
# file.  "register" stands for the next entry of `registers`.
NUMBER_FIELDS = {
    "Commit": (("pc", 8), ("bits", 4), ("value", 8)),
    "Trap": (("pc", 8), ("bits", 4), ("cause", 8), ("tval", 8)),
    "Regs": (("pc", 8),) + (("register", 8),) * 31,
    "Csrs": (("mode", 1),) + (("register", 8),) * 17,
    "Load": (("pc", 8), ("bits", 4), ("value", 8), ("at", 8), ("paddr", 8)),
    "Store": (("pc", 8), ("bits", 4), ("paddr", 8), ("value", 8)),
    "Atomic": (
        ("pc", 8),
        ("bits", 4),
        ("value", 8),
        ("paddr", 8),
        ("width", 1),
        ("wrote", 1),
        ("new", 8),
    ),
    "Drain": (("line", 8), ("mask", 8), ("count", 2)),
    "Refill": (("line", 8),),
    "Beat": (),
}
KINDS_WITH_BYTES = ("Drain", "Refill")


def make_record(kind, hart, stamp, numbers, data=b""):
    """Builds a record from its numbers in the order of NUMBER_FIELDS."""
    record = Record(kind, hart, stamp, data=data)
    registers = []
    for (name, _), number in zip(NUMBER_FIELDS[kind], numbers):
        if name == "register":
            registers.append(number)
        else:
            setattr(record, name, number)
    record.registers = tuple(registers)
    return record


def in_ram(address, width=1):
    """Whether `width` bytes from `address` on lie in RAM."""
    return RAM_START <= address and address + width <= RAM_END


def is_device(address):
    """Whether the address belongs to a device."""
    return 0 <= address < RAM_START


def line_of(address):
    """The start of the 64-byte line that holds the address."""
    return address - address % LINE_BYTES


def is_lawful(record):
    """Whether every field of the record is within its bounds."""
    if record.hart >= 8:
        return False
    if record.kind in ("Commit", "Load", "Store", "Atomic", "Trap"):
        if not has_lawful_bits(record):
            return False
    if record.kind == "Csrs":
        return record.mode in (0, 1, 3)
    if record.kind == "Load":
        return record.at <= record.stamp
    if record.kind == "Atomic":
        return is_lawful_atomic(record)
    if record.kind in KINDS_WITH_BYTES:
        return is_lawful_line(record)
    return True


def has_lawful_bits(record):
    """Whether the instruction bits have a form that the record may carry."""
    if record.kind == "Trap":
        if record.cause >> 63:
            return record.bits == 0
        if record.cause in (1, 12):
            return True
    return record.bits & 3 == 3 or record.bits < 0x10000


def is_lawful_atomic(record):
    """Whether width, address and written value of an Atomic go together."""
    if record.width not in (4, 8):
        return False
    if record.paddr % record.width or not in_ram(record.paddr, record.width):
        return False
    if record.wrote not in (0, 1):
        return False
    if not record.wrote and record.new:
        return False
    return record.width == 8 or record.new < 1 << 32


def is_lawful_line(record):
    """Whether a Drain or Refill names a RAM line, and a Drain just its bytes."""
    if record.line % LINE_BYTES or not in_ram(record.line, LINE_BYTES):
        return False
    if record.kind == "Refill":
        return True
    if record.mask == 0 or record.count == 0:
        return False
    return all(
        record.mask >> place & 1 or byte == 0
        for place, byte in enumerate(record.data)
    )


def writes_memory(record):
    """Whether the record changes RAM: a Drain, or an Atomic that wrote."""
    return record.kind == "Drain" or (record.kind == "Atomic" and record.wrote == 1)


def bytes_written(record):
    """The written bytes of a writing record, by address."""
    if record.kind == "Atomic":
        new = record.new.to_bytes(8, "little")
        return {record.paddr + place: new[place] for place in range(record.width)}
    return {
        record.line + place: byte
        for place, byte in enumerate(record.data)
        if record.mask >> place & 1
    }
