"""Reading a probe file: its records in order, or the first fault in it."""

from dataclasses import dataclass, field

from .compact_records import read_compact_record
from .records import (
    KINDS,
    KINDS_WITH_BYTES,
    NUMBER_FIELDS,
    is_lawful,
    make_record,
    writes_memory,
)

MAGIC = b"SMPDIFF\0"
HEADER_BYTES = 16
END_TAG = 255
END_BYTES = 9
MOST_RECORDS = 4_194_304
MOST_WRITES = 1_048_576

# Where each field of the header starts and ends.
HEADER_FIELDS = (
    (0, 8, lambda value: value == int.from_bytes(MAGIC, "little")),
    (8, 10, lambda value: value in (1, 2)),
    (10, 11, lambda value: 1 <= value <= 8),
    (11, 12, lambda value: value in (0, 1)),
    (12, 16, lambda value: value == 0),
)


class Refused(Exception):
    """The file has no verdict: its first fault, as the line that is printed."""

    def __init__(self, status, text):
        super().__init__(text)
        self.status = status
        self.text = text


def malformed(offset):
    """The refusal of a file whose bytes break the grammar at an offset."""
    return Refused(4, f"MALFORMED offset={offset}")


@dataclass
class ProbeFile:
    """The content of a file: its harts, whether they have Sv48, and the records in file order."""

    harts: int
    version: int
    is_wide: bool
    records: list = field(default_factory=list)


def read_probe_file(data):
    """Reads the whole file, or raises Refused at its first fault."""
    file = read_header(data)
    last_stamps = {}
    counts = [0] * file.harts
    writes = 0
    place = HEADER_BYTES
    while place < len(data) and data[place] != END_TAG:
        record, length = read_record(data, place, file, last_stamps)
        if len(file.records) == MOST_RECORDS:
            raise Refused(8, f"LIMIT records={MOST_RECORDS + 1}")
        if writes_memory(record):
            if writes == MOST_WRITES:
                raise Refused(8, f"LIMIT writes={MOST_WRITES + 1}")
            writes += 1
        record.seq = counts[record.hart]
        counts[record.hart] += 1
        last_stamps[record.hart] = record.stamp
        file.records.append(record)
        place += length
    check_end(data, place, len(file.records))
    return file


def read_header(data):
    """Reads the header, or refuses the first field that is cut or wrong."""
    for start, end, is_good in HEADER_FIELDS:
        part = data[start:end]
        if len(part) < end - start or not is_good(int.from_bytes(part, "little")):
            raise malformed(start)
    version = int.from_bytes(data[8:10], "little")
    return ProbeFile(harts=data[10], version=version, is_wide=data[11] == 1)


def read_record(data, place, file, last_stamps):
    """Reads the record at a place and checks it against the records before it."""
    if file.version == 1:
        found = read_plain_record(data, place)
    else:
        found = read_compact_record(data, place, last_stamps)
    if found is None:
        raise malformed(place)
    record, length = found
    if not is_lawful(record) or record.hart >= file.harts:
        raise malformed(place)
    if record.stamp < last_stamps.get(record.hart, 0):
        raise malformed(place)
    return record, length


def read_plain_record(data, place):
    """The record with fields of fixed size at a place, with its length, or None."""
    kind = KINDS.get(data[place])
    if kind is None:
        return None
    fields = NUMBER_FIELDS[kind]
    length = 10 + sum(size for _, size in fields)
    data_bytes = 64 if kind in KINDS_WITH_BYTES else 0
    if place + length + data_bytes > len(data):
        return None
    hart = data[place + 1]
    stamp = int.from_bytes(data[place + 2 : place + 10], "little")
    numbers = []
    at = place + 10
    for _, size in fields:
        numbers.append(int.from_bytes(data[at : at + size], "little"))
        at += size
    record = make_record(kind, hart, stamp, numbers, bytes(data[at : at + data_bytes]))
    return record, length + data_bytes


def check_end(data, place, record_count):
    """Checks the End record at a place, and that nothing follows it."""
    if place >= len(data):
        raise malformed(len(data))
    end = place + END_BYTES
    if end > len(data):
        raise malformed(place)
    if int.from_bytes(data[place + 1 : end], "little") != record_count:
        raise malformed(place)
    if end < len(data):
        raise malformed(end)
