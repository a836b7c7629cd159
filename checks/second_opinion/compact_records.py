"""Records of file version 2: numbers of variable length, zeros left out."""

from .records import KINDS, KINDS_WITH_BYTES, NUMBER_FIELDS, make_record

WORD_LIMIT = 1 << 64


class Cursor:
    """A place in bytes that moves forward, as long as they spell something."""

    def __init__(self, data, place):
        self.data = data
        self.place = place

    def byte(self):
        """The next byte."""
        if self.place >= len(self.data):
            raise NoSpelling
        self.place += 1
        return self.data[self.place - 1]

    def take(self, count):
        """The next `count` bytes."""
        return bytes(self.byte() for _ in range(count))

    def number(self):
        """The next number: seven bits a byte, lowest first, no idle last byte."""
        total = 0
        for group in range(10):
            byte = self.byte()
            total |= (byte & 0x7F) << 7 * group
            if not byte & 0x80:
                if total >= WORD_LIMIT or (byte == 0 and group > 0):
                    raise NoSpelling
                return total
        raise NoSpelling


class NoSpelling(Exception):
    """The bytes are cut or spell no record."""


def read_compact_record(data, place, last_stamps):
    """The record at a place with its length, or None where none is spelled."""
    cursor = Cursor(data, place)
    try:
        record = spelled_record(cursor, last_stamps)
    except NoSpelling:
        return None
    return record, cursor.place - place


def spelled_record(cursor, last_stamps):
    """Reads one record; the stamp counts on from the hart's last one."""
    kind = KINDS.get(cursor.byte())
    if kind is None:
        raise NoSpelling
    hart = cursor.byte()
    stamp = last_stamps.get(hart, 0) + cursor.number()
    if stamp >= WORD_LIMIT:
        raise NoSpelling
    numbers = read_numbers(cursor, NUMBER_FIELDS[kind])
    data = b""
    if kind in KINDS_WITH_BYTES:
        data = read_bytes(cursor, kind, numbers)
    return make_record(kind, hart, stamp, numbers, data)


def read_numbers(cursor, fields):
    """Reads the presence bits and then the numbers that are not zero."""
    presence = int.from_bytes(cursor.take((len(fields) + 7) // 8), "little")
    if presence >> len(fields):
        raise NoSpelling
    numbers = []
    for place, (_, size) in enumerate(fields):
        number = 0
        if presence >> place & 1:
            number = cursor.number()
            if number == 0 or number >> 8 * size:
                raise NoSpelling
        numbers.append(number)
    return numbers


def read_bytes(cursor, kind, numbers):
    """Reads a Drain's bytes under its mask, or all bytes of a Refill."""
    if kind == "Refill":
        return cursor.take(64)
    mask = numbers[1]
    return bytes(cursor.byte() if mask >> place & 1 else 0 for place in range(64))
