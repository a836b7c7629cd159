"""Where the records of a run stand in a picture: a lane for each hart, cycles across."""

from __future__ import annotations

from dataclasses import dataclass, field
from typing import Dict, Iterable, List, Tuple

from .records import Key, Record

Row = Tuple[Key, Record]

BOX_WIDTH, BOX_HEIGHT = 122, 48
# Between two columns, and between two boxes of a column.
GUTTER, BOX_GAP = 36, 8
# Above each lane there is room for arrows.
CHANNEL = 44
AXIS_HEIGHT = 34
MARGIN = 12
# A cycle in which a hart has more records takes several columns.
MOST_ROWS = 4
TRACKS, TRACK_STEP = 6, 5


@dataclass(frozen=True)
class Box:
    """The place of a record."""

    key: Key
    record: Record
    column: int
    left: int
    top: int

    @property
    def middle(self) -> int:
        """The height at which arrows leave and reach the box."""
        return self.top + BOX_HEIGHT // 2


@dataclass
class Layout:
    """The places of all records."""

    # Of each column its cycle.
    columns: List[int] = field(default_factory=list)
    boxes: Dict[Key, Box] = field(default_factory=dict)
    # Of each hart the top of its lane, and the lane's height.
    lanes: List[Tuple[int, int]] = field(default_factory=list)
    width: int = 0
    height: int = 0

    def column_left(self, column: int) -> int:
        """The left edge of a column's boxes."""
        return MARGIN + GUTTER + column * (BOX_WIDTH + GUTTER)


def _cells(rows: List[Row]) -> Dict[Key, Tuple[int, int, int]]:
    """Of each record its cycle, its column within the cycle, and its row."""
    counts: Dict[Tuple[int, int], int] = {}
    cells = {}
    for key, _ in rows:
        place = counts.get((key.stamp, key.hart), 0)
        counts[key.stamp, key.hart] = place + 1
        cells[key] = key.stamp, place // MOST_ROWS, place % MOST_ROWS
    return cells


def _lanes(harts: int, cells: Dict[Key, Tuple[int, int, int]]) -> List[Tuple[int, int]]:
    lanes, top = [], AXIS_HEIGHT
    for hart in range(harts):
        used = max((row + 1 for key, (_, _, row) in cells.items() if key.hart == hart), default=1)
        height = used * (BOX_HEIGHT + BOX_GAP) - BOX_GAP
        top += CHANNEL
        lanes.append((top, height))
        top += height
    return lanes


def lay_out(rows: Iterable[Row], harts: int) -> Layout:
    """Places the records, which may come in any order."""
    ordered = sorted(rows, key=lambda row: row[0])
    cells = _cells(ordered)
    places = sorted({cell[:2] for cell in cells.values()})
    numbers = {place: number for number, place in enumerate(places)}
    layout = Layout([stamp for stamp, _ in places], {}, _lanes(harts, cells))
    for key, record in ordered:
        stamp, part, row = cells[key]
        column = numbers[stamp, part]
        top = layout.lanes[key.hart][0] + row * (BOX_HEIGHT + BOX_GAP)
        layout.boxes[key] = Box(key, record, column, layout.column_left(column), top)
    layout.width = layout.column_left(len(places)) + MARGIN
    bottom = layout.lanes[-1]
    layout.height = bottom[0] + bottom[1] + MARGIN
    return layout


class Router:
    """Leads arrows through the gutters and channels, so that none crosses a box."""

    def __init__(self, layout: Layout) -> None:
        self._layout = layout
        self._used: Dict[Tuple[str, int], int] = {}

    def _track(self, sort: str, number: int) -> int:
        """The offset of the next free track of a gutter or channel."""
        used = self._used.get((sort, number), 0)
        self._used[sort, number] = used + 1
        return (used % TRACKS) * TRACK_STEP

    def route(self, source: Box, target: Box) -> List[Tuple[int, int]]:
        """The corners of an arrow from the right of one box to the left of another."""
        out = source.left + BOX_WIDTH + 4 + self._track("gutter", source.column + 1)
        into = target.left - 8 - self._track("gutter", target.column)
        channel = self._layout.lanes[target.key.hart][0] - 8 - self._track("channel", target.key.hart)
        return [
            (source.left + BOX_WIDTH, source.middle),
            (out, source.middle),
            (out, channel),
            (into, channel),
            (into, target.middle),
            (target.left, target.middle),
        ]
