"""The bytes of headers, records and ends, in both versions of the file."""

from __future__ import annotations

import struct
from typing import Dict, NamedTuple

from .records import KINDS, LINE_BYTES, Drain, Record, Refill

MAGIC = b"SMPDIFF\0"
HEADER_BYTES = 16
END_TAG = 255
END_BYTES = 9
VERSIONS = (1, 2)
WIDE_FLAG = 1

_CODES = {1: "B", 2: "H", 4: "I", 8: "Q"}
# Of each tag: hart, stamp and the numbers behind the tag, with the line's bytes where there are some.
BODIES: Dict[int, struct.Struct] = {
    kind.tag: struct.Struct(
        "<xBQ"
        + "".join(_CODES[size] for _, size in kind.numbers)
        + (f"{LINE_BYTES}s" if kind in (Drain, Refill) else "")
    )
    for kind in KINDS
}


class Header(NamedTuple):
    """The header of a file. `wide` says that the harts may use Sv48 beside Sv39."""

    harts: int
    version: int = 1
    wide: bool = False

    def spell(self) -> bytes:
        """The bytes of the header."""
        flags = WIDE_FLAG if self.wide else 0
        return MAGIC + struct.pack("<HBBI", self.version, self.harts, flags, 0)


def spell_end(count: int) -> bytes:
    """The End of a file of so many records."""
    return struct.pack("<BQ", END_TAG, count)


def spell(record: Record) -> bytes:
    """The bytes of a record in version 1."""
    content = (record.content,) if isinstance(record, (Drain, Refill)) else ()
    body = BODIES[record.tag].pack(record.hart, record.stamp, *record.values(), *content)
    return bytes((record.tag,)) + body[1:]


def varint(number: int) -> bytes:
    """A number in groups of 7 bits, the lowest first; bit 7 says that another byte follows."""
    spelled = bytearray()
    while number >> 7:
        spelled.append(number & 0x7F | 0x80)
        number >>= 7
    spelled.append(number)
    return bytes(spelled)


def spell_short(record: Record, last_stamp: int) -> bytes:
    """The bytes of a record in version 2, where its hart's last stamp in the file was this one."""
    values = record.values()
    presence = sum(1 << place for place, value in enumerate(values) if value)
    pieces = [
        bytes((record.tag, record.hart)),
        varint(record.stamp - last_stamp),
        presence.to_bytes((len(values) + 7) // 8, "little"),
    ]
    pieces.extend(varint(value) for value in values if value)
    if isinstance(record, Drain):
        mask = record.mask
        pieces.append(bytes(byte for n, byte in enumerate(record.content) if mask >> n & 1))
    elif isinstance(record, Refill):
        pieces.append(record.content)
    return b"".join(pieces)
