"""Draws waves as SVG: lanes of signals over cycles, and below them the records that came of them."""

import xml.etree.ElementTree as ElementTree
from collections.abc import Iterator, Sequence
from dataclasses import dataclass

LABELS = 190  # the width for the lanes' names
WIDTH = 980  # the most that a picture has
RIGHT = 150  # the room for a record of the last cycle
LARGEST_STEP = 40.0  # the width of a cycle
LANE, SIGNAL = 28, 18  # the height of a lane, and of the signal in it
AXIS = 26
FLAG, FLAG_GAP = 20, 4
LETTER = 7.3  # the width of a letter of the font, at most
MARGIN = 6

LEVEL, NAMES, NUMBER, ADDRESS = "level", "names", "number", "address"
# The colours are told apart without colour too: each box has its text, and each level its height.
STYLE = (
    "text{font:12px 'DejaVu Sans Mono',Menlo,Consolas,monospace;fill:#111}"
    ".ground{fill:#fff}.grid{stroke:#ddd}.level{fill:none;stroke:#0b3d66;stroke-width:1.5}.high{fill:#cfe3f3}"
    ".box{fill:#f7f7f7;stroke:#666}.stamp{fill:#fbe6c2}.pole{stroke:#a34700}.flag{fill:#fff7e8;stroke:#a34700}"
    ".noted{fill:url(#stripes)}.stripe{stroke:#7db2d6}"
    ".thread{stroke:#0072b2;stroke-dasharray:4 3}.note{fill:#fff;stroke:#0072b2;stroke-dasharray:4 3}"
)


@dataclass(frozen=True)
class Lane:
    """A signal: its name in the picture, how it is drawn, and what it is in each cycle."""

    name: str
    sort: str
    values: Sequence[int]
    # What the numbers are called, of a lane of names.
    words: Sequence[str] = ()


@dataclass(frozen=True)
class Flag:
    """What stands below the lanes: a record in the cycle of its stamp, or a note on another cycle."""

    cycle: int
    text: str
    is_note: bool = False

    @property
    def width(self) -> float:
        """How wide its box is."""
        return len(self.text) * LETTER + 10


@dataclass(frozen=True)
class Waves:
    """A picture: what it shows, its first cycle, its lanes, and its flags in the order of the file."""

    title: str
    first: int
    lanes: Sequence[Lane]
    flags: Sequence[Flag]

    @property
    def count(self) -> int:
        """How many cycles it has."""
        return len(self.lanes[0].values)

    @property
    def step(self) -> float:
        """How wide a cycle is."""
        return min(LARGEST_STEP, (WIDTH - LABELS - RIGHT) / self.count)

    def left(self, cycle: int) -> float:
        """Where a cycle begins."""
        return LABELS + (cycle - self.first) * self.step

    def middle(self, cycle: int) -> float:
        """Where the pole of a flag stands."""
        return self.left(cycle) + self.step / 2

    @property
    def bottom(self) -> float:
        """Where the lanes end."""
        return AXIS + LANE * len(self.lanes)


def rows_of(waves: Waves) -> list[int]:
    """The row of each flag: no box lies over another one, nor over the pole of a later one.

    The flags of a cycle hang below one another on one pole, and those of the latest cycle stand highest.
    """
    rows = [0] * len(waves.flags)
    poles: list[tuple[float, int]] = []  # where later poles stand, and the lowest row that they reach
    for cycle in sorted({flag.cycle for flag in waves.flags}, reverse=True):
        places = [place for place, flag in enumerate(waves.flags) if flag.cycle == cycle]
        row = 0
        for place in places:
            end = waves.middle(cycle) + waves.flags[place].width + FLAG_GAP
            while any(pole < end and row <= lowest for pole, lowest in poles):
                row += 1
            rows[place] = row
            row += 1
        poles.append((waves.middle(cycle), row - 1))
    return rows


def runs_of(values: Sequence[int]) -> Iterator[tuple[int, int, int]]:
    """Each value with the places from its first to behind its last one in a row."""
    start = 0
    for place in range(1, len(values) + 1):
        if place == len(values) or values[place] != values[start]:
            yield values[start], start, place
            start = place


class Drawing:
    """The picture as it is made."""

    def __init__(self, waves: Waves) -> None:
        self.waves = waves
        self.rows = rows_of(waves)
        below = (FLAG + FLAG_GAP) * (max(self.rows, default=-1) + 1)
        self.height = waves.bottom + MARGIN + below + MARGIN
        ends = [waves.middle(flag.cycle) + flag.width for flag in waves.flags]
        width = max(*ends, waves.left(waves.first + waves.count)) + MARGIN
        size = {"width": f"{width:g}", "height": f"{self.height:g}", "viewBox": f"0 0 {width:g} {self.height:g}"}
        self.svg = ElementTree.Element("svg", {"xmlns": "http://www.w3.org/2000/svg", "role": "img", **size})
        ElementTree.SubElement(self.svg, "title").text = waves.title
        ElementTree.SubElement(self.svg, "style").text = STYLE
        self.stripes()
        self.rectangle("ground", 0, 0, width, self.height)

    def stripes(self) -> None:
        """The pattern of a cycle that a note is on."""
        size = {"id": "stripes", "width": "6", "height": "6", "patternUnits": "userSpaceOnUse"}
        pattern = ElementTree.SubElement(self.svg, "pattern", size)
        ElementTree.SubElement(pattern, "path", {"class": "stripe", "d": "M0 6L6 0"})

    def rectangle(self, kind: str, left: float, top: float, width: float, height: float) -> None:
        """A box."""
        place = {"x": f"{left:g}", "y": f"{top:g}", "width": f"{width:g}", "height": f"{height:g}"}
        ElementTree.SubElement(self.svg, "rect", {"class": kind, **place})

    def line(self, kind: str, place: float, top: float, end: float) -> None:
        """A line from above to below."""
        ends = {"x1": f"{place:g}", "x2": f"{place:g}", "y1": f"{top:g}", "y2": f"{end:g}"}
        ElementTree.SubElement(self.svg, "line", {"class": kind, **ends})

    def text(self, words: str, left: float, base: float, anchor: str = "start") -> None:
        """A text, by the left end or the middle of its base line."""
        place = {"x": f"{left:g}", "y": f"{base:g}", "text-anchor": anchor}
        ElementTree.SubElement(self.svg, "text", place).text = words

    def axis(self) -> None:
        """The cycles, with those of records in a tint and those of notes alone striped."""
        waves = self.waves
        stamps = {flag.cycle for flag in waves.flags if not flag.is_note}
        for cycle in sorted({flag.cycle for flag in waves.flags}):
            kind, top = ("stamp", 0) if cycle in stamps else ("noted", AXIS)
            self.rectangle(kind, waves.left(cycle), top, waves.step, waves.bottom - top)
        self.text("cycle", MARGIN, AXIS - 9)
        for cycle in range(waves.first, waves.first + waves.count):
            self.line("grid", waves.left(cycle), AXIS, waves.bottom)
            self.text(str(cycle), waves.middle(cycle), AXIS - 9, "middle")

    def level(self, lane: Lane, top: float) -> None:
        """A signal of one bit: high it has a tint below it."""
        waves = self.waves
        path = []
        for value, start, end in runs_of(lane.values):
            left, right = (waves.left(waves.first + place) for place in (start, end))
            height = top if value else top + SIGNAL
            if value:
                self.rectangle("high", left, top, right - left, SIGNAL)
            path += [f"{left:g},{height:g}", f"{right:g},{height:g}"]
        ElementTree.SubElement(self.svg, "polyline", {"class": "level", "points": " ".join(path)})

    def boxes(self, lane: Lane, top: float) -> None:
        """A signal of several bits: a box for each value, with as much of it as fits."""
        waves = self.waves
        for value, start, end in runs_of(lane.values):
            left, right = (waves.left(waves.first + place) for place in (start, end))
            word = lane.words[value] if lane.sort == NAMES else f"{value:x}" if lane.sort == ADDRESS else str(value)
            if len(word) * LETTER > right - left:
                word = word[0] if lane.sort == NAMES else f"..{word[-2:]}"
            self.rectangle("box", left + 1, top, right - left - 2, SIGNAL)
            self.text(word, (left + right) / 2, top + 13, "middle")

    def flags(self) -> None:
        """The records and notes: a pole from the lanes down to each, and its box at the pole."""
        waves = self.waves
        for flag, row in zip(waves.flags, self.rows):
            top = waves.bottom + MARGIN + row * (FLAG + FLAG_GAP)
            self.line("thread" if flag.is_note else "pole", waves.middle(flag.cycle), waves.bottom, top + FLAG)
        for flag, row in zip(waves.flags, self.rows):
            top = waves.bottom + MARGIN + row * (FLAG + FLAG_GAP)
            self.rectangle("note" if flag.is_note else "flag", waves.middle(flag.cycle), top, flag.width, FLAG)
            self.text(flag.text, waves.middle(flag.cycle) + 5, top + 14)


def svg_of(waves: Waves) -> str:
    """The picture as text."""
    drawing = Drawing(waves)
    drawing.axis()
    for number, lane in enumerate(waves.lanes):
        top = AXIS + LANE * number + (LANE - SIGNAL) / 2
        drawing.text(lane.name, MARGIN, top + 13)
        if lane.sort == LEVEL:
            drawing.level(lane, top)
        else:
            drawing.boxes(lane, top)
    drawing.flags()
    ElementTree.indent(drawing.svg, " ")
    return ElementTree.tostring(drawing.svg, encoding="unicode") + "\n"
