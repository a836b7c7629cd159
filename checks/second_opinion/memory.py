"""Memory over time: the image and the list of all writes by key.

A moment is a number of writes that have happened.  Everything here is a
statement about the whole list of writes of the file.
"""

from dataclasses import dataclass

from .records import RAM_START, Key, bytes_written, line_of, writes_memory


@dataclass
class Write:
    """One change of RAM."""

    key: Key
    line: int
    bytes: dict


def write_of(record):
    """The write that a writing record makes."""
    address = record.paddr if record.kind == "Atomic" else record.line
    return Write(record.key, line_of(address), bytes_written(record))


class Memory:
    """The image and the writes of a file in the order of their keys."""

    def __init__(self, image, records):
        self.image = image
        self.writes = [write_of(record) for record in records if writes_memory(record)]
        self.writes.sort(key=lambda write: write.key)
        self.changes = {}
        for place, write in enumerate(self.writes):
            for address, byte in write.bytes.items():
                self.changes.setdefault(address, []).append((place + 1, write.key, byte))
        self.known_spans = {}

    def last_change(self, moment, address):
        """The last change of a byte among the first writes, or None."""
        for change in reversed(self.changes.get(address, ())):
            if change[0] <= moment:
                return change
        return None

    def byte(self, moment, address):
        """The byte at a moment."""
        change = self.last_change(moment, address)
        if change is not None:
            return change[2]
        offset = address - RAM_START
        return self.image[offset] if offset < len(self.image) else 0

    def source(self, moment, address):
        """The key of the write that the byte comes from, or None for the image."""
        change = self.last_change(moment, address)
        return None if change is None else change[1]

    def number(self, moment, address, width):
        """The bytes from an address on as one number, low byte first."""
        return int.from_bytes(
            bytes(self.byte(moment, address + place) for place in range(width)), "little"
        )

    def moment_of(self, record):
        """How many writes have a key below the record's."""
        return sum(1 for write in self.writes if write.key < record.key)

    def visible(self, record, at):
        """The least and the greatest moment that the record may see in a cycle."""
        question = (record.key, at)
        if question not in self.known_spans:
            self.known_spans[question] = self.find_visible(record, at)
        return self.known_spans[question]

    def find_visible(self, record, at):
        """Computes `visible` by asking each write whether it must or may be seen."""
        least, greatest = 0, len(self.writes)
        for place, write in enumerate(self.writes):
            stamp, hart, seq = write.key
            is_earlier = hart == record.hart and seq < record.seq
            is_later = hart == record.hart and seq > record.seq
            if stamp < at or (is_earlier and stamp <= at):
                least = max(least, place + 1)
            if stamp > at or is_later:
                greatest = min(greatest, place)
        return least, greatest

    def own_writes(self, record, address):
        """The keys of the hart's own writes of a byte before the record."""
        return [
            key
            for _, key, _ in self.changes.get(address, ())
            if key.hart == record.hart and key.seq < record.seq
        ]

    def is_touched(self, line, after, before, hart):
        """Whether another hart writes the line between two keys."""
        return any(
            write.line == line
            and write.key.hart != hart
            and after < write.key < before
            for write in self.writes
        )
