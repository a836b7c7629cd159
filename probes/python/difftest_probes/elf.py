"""ELF files of 64-bit RISC-V: the image that they load, their code and their symbols."""

from __future__ import annotations

import struct
from bisect import bisect_right
from dataclasses import dataclass
from typing import Dict, List, NamedTuple, Tuple

from .reader import Path
from .records import MOST_IMAGE_BYTES, RAM_START, in_ram
from .writer import ProbeError

_HEADER = struct.Struct("<16sHHIQQQIHHHHHH")
_SEGMENT = struct.Struct("<IIQQQQQQ")
_SECTION = struct.Struct("<IIQQQQIIQQ")
_SYMBOL = struct.Struct("<IBBHQQ")
_RISCV, _CLASS_64, _LITTLE = 243, 2, 1
_LOAD = 1
_SYMBOL_TABLE, _NO_BITS = 2, 8
_ALLOCATED, _EXECUTABLE = 2, 4
_FUNCTION_KINDS = (0, 2)


class ElfError(ProbeError):
    """A file that is no ELF file of 64-bit RISC-V, or whose content is no image."""


class Segment(NamedTuple):
    """A part of the file that is loaded to a physical address."""

    address: int
    content: bytes


class CodeSection(NamedTuple):
    """A section with instructions."""

    name: str
    address: int
    content: bytes


@dataclass(frozen=True)
class Elf:
    """What an ELF file says of memory before the first cycle."""

    entry: int
    segments: Tuple[Segment, ...]
    code: Tuple[CodeSection, ...]
    # Addresses in order, each with a name of it.
    symbols: Tuple[Tuple[int, str], ...]

    def place_of(self, address: int) -> str:
        """The address as the last symbol at or before it, with the distance."""
        at = bisect_right(self.symbols, (address, "\uffff"))
        if not at:
            return ""
        start, name = self.symbols[at - 1]
        return name if start == address else f"{name}+{address - start:#x}"


class _Bytes:
    """The bytes of a file, of which no part may be missing."""

    def __init__(self, data: bytes) -> None:
        self.data = data

    def part(self, start: int, length: int) -> bytes:
        """So many bytes from a place."""
        if start + length > len(self.data):
            raise ElfError("the ELF file is cut short")
        return self.data[start : start + length]

    def rows(self, form: struct.Struct, start: int, count: int, size: int) -> List[Tuple[int, ...]]:
        """A table of the file."""
        return [form.unpack(self.part(start + n * size, form.size)) for n in range(count)]


def _text_at(strings: bytes, place: int) -> str:
    return strings[place : strings.find(b"\0", place)].decode("latin-1")


def _segments(
    file: _Bytes, rows: List[Tuple[int, ...]], sections: List[Tuple[int, ...]]
) -> Tuple[Segment, ...]:
    """What is loaded: of each segment its sections, since it may also cover the headers of the file."""
    found = []
    for kind, _flags, offset, virtual, physical, size, *_ in rows:
        if kind != _LOAD or not size:
            continue
        parts = [
            (address, length)
            for _name, sort, flags, address, _offset, length, *_ in sections
            if flags & _ALLOCATED and sort != _NO_BITS and length and virtual <= address < virtual + size
        ]
        for address, length in parts if sections else [(virtual, size)]:
            inside = address - virtual
            found.append(Segment(physical + inside, file.part(offset + inside, length)))
    return tuple(found)


def _code(file: _Bytes, sections: List[Tuple[int, ...]], names: bytes) -> Tuple[CodeSection, ...]:
    found = []
    for name, kind, flags, address, offset, size, *_ in sections:
        if flags & _EXECUTABLE and kind != _NO_BITS and size:
            found.append(CodeSection(_text_at(names, name), address, file.part(offset, size)))
    return tuple(found)


def _symbols(file: _Bytes, sections: List[Tuple[int, ...]]) -> Tuple[Tuple[int, str], ...]:
    names: Dict[int, str] = {}
    for _name, kind, _flags, _address, offset, size, link, *_ in sections:
        if kind != _SYMBOL_TABLE:
            continue
        strings = file.part(sections[link][4], sections[link][5])
        for name, info, _other, place, value, _size in file.rows(
            _SYMBOL, offset, size // _SYMBOL.size, _SYMBOL.size
        ):
            text = _text_at(strings, name)
            if info & 15 in _FUNCTION_KINDS and place and text and not text.startswith(("$", ".L")):
                names.setdefault(value, text)
    return tuple(sorted(names.items()))


def is_elf(data: bytes) -> bool:
    """Whether the bytes begin as an ELF file does."""
    return data[:4] == b"\x7fELF"


def read_elf(data: bytes) -> Elf:
    """What an ELF file holds, or ElfError."""
    file = _Bytes(data)
    if not is_elf(data):
        raise ElfError("no ELF file")
    head = _HEADER.unpack(file.part(0, _HEADER.size))
    if (data[4], data[5], head[2]) != (_CLASS_64, _LITTLE, _RISCV):
        raise ElfError("an ELF file, but not of 64-bit little-endian RISC-V")
    entry, segments_at, sections_at = head[4:7]
    segment_size, segment_count, section_size, section_count, names_at = head[9:14]
    segments = file.rows(_SEGMENT, segments_at, segment_count, segment_size)
    sections = file.rows(_SECTION, sections_at, section_count, section_size)
    names = file.part(sections[names_at][4], sections[names_at][5]) if sections else b""
    return Elf(
        entry, _segments(file, segments, sections), _code(file, sections, names), _symbols(file, sections)
    )


def image_of(elf: Elf) -> bytes:
    """The bytes of RAM before the first cycle, without the zeros behind the last that is not."""
    image = bytearray()
    for address, content in elf.segments:
        if not in_ram(address, len(content)):
            end = address + len(content)
            raise ElfError(f"the segment {address:x} to {end - 1:x} is not inside RAM (80000000 to 83ffffff)")
        start = address - RAM_START
        image.extend(bytes(max(0, start + len(content) - len(image))))
        image[start : start + len(content)] = content
    trimmed = bytes(image).rstrip(b"\0")
    if len(trimmed) > MOST_IMAGE_BYTES:
        raise ElfError(f"the image has {len(trimmed)} bytes; an image has at most {MOST_IMAGE_BYTES}")
    return trimmed


def image_of_elf(path: Path) -> bytes:
    """The image that the ELF file at a path loads."""
    with open(path, "rb") as source:
        return image_of(read_elf(source.read()))
