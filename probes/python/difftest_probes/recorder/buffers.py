"""The store buffers that a recording shows: QEMU writes memory at once, and has none.

With drains at once each store has its drain behind it. With late drains a hart keeps up to MOST_LINES lines
back, and merges stores into them. A line is drained before any other hart looks at it, before its own hart
fetches or translates by it, and before what has to wait for stores, so that what each record saw in QEMU is
also what it may see in the file.
"""

from __future__ import annotations

from typing import Dict, Iterator, List

from ..records import LINE_BYTES, Drain, line_of

MOST_LINES = 4
MOST_COUNT = 65535


class Line:
    """The stores of a hart that wait on one line."""

    def __init__(self) -> None:
        self.content = bytearray(LINE_BYTES)
        self.mask = 0
        self.count = 0

    def put(self, start: int, content: bytes) -> None:
        """Merges a store."""
        self.content[start : start + len(content)] = content
        self.mask |= ((1 << len(content)) - 1) << start
        self.count += 1


class StoreBuffer:
    """The waiting lines of one hart, the oldest first."""

    def __init__(self, hart: int) -> None:
        self._hart = hart
        self._lines: Dict[int, Line] = {}

    def has(self, line: int) -> bool:
        """Whether a store waits on the line."""
        return line in self._lines

    def oldest(self) -> List[int]:
        """The addresses of the lines, the oldest first."""
        return list(self._lines)

    def has_room(self, line: int) -> bool:
        """Whether a store to the line can wait."""
        held = self._lines.get(line)
        return held.count < MOST_COUNT if held else len(self._lines) < MOST_LINES

    def put(self, address: int, content: bytes) -> None:
        """Lets a store wait."""
        line = line_of(address)
        self._lines.setdefault(line, Line()).put(address - line, content)

    def drain(self, line: int, stamp: int) -> Iterator[Drain]:
        """The drain of a line, if a store waits there."""
        held = self._lines.pop(line, None)
        if held:
            yield Drain(self._hart, stamp, line, held.mask, held.count, bytes(held.content))

    def drain_all(self, stamp: int) -> Iterator[Drain]:
        """The drains of all lines."""
        for line in self.oldest():
            yield from self.drain(line, stamp)
