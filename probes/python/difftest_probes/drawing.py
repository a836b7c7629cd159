"""A run as a picture: SVG of its records, with arrows from writes to the loads that read them."""

from __future__ import annotations

import xml.etree.ElementTree as ElementTree
from typing import Dict, List, NamedTuple, Optional, Tuple

from .assembly import Place, disassemble
from .layout import AXIS_HEIGHT, BOX_HEIGHT, BOX_WIDTH, CHANNEL, MARGIN, Box, Layout, Router
from .records import Atomic, Beat, Commit, Csrs, Drain, Key, Load, Record, Refill, Regs, Store, Trap
from .report import Failure, Note, OwnStore, Report
from .text import line_text

# So many characters of the font fit into a box.
BOX_LETTERS = 17
# Tints that are told apart without colours too, since each box names its kind.
TINTS = {
    "Commit": "#f4f4f4",
    "Trap": "#f6e3b4",
    "Regs": "#ffffff",
    "Csrs": "#ffffff",
    "Load": "#d5e8f7",
    "Store": "#d8f0e4",
    "Atomic": "#eadcf2",
    "Drain": "#9fd8c0",
    "Refill": "#c3ddf0",
    "Beat": "#ffffff",
}


class Arrow(NamedTuple):
    """An arrow from a record to one that read its bytes; `sort` is read, forwarded or missed."""

    source: Key
    target: Key
    sort: str


def _short(number: int) -> str:
    return f"{number:x}"


def _cut(text: str) -> str:
    return text if len(text) <= BOX_LETTERS else text[: BOX_LETTERS - 1] + "\u2026"


def _place_of(record: Record) -> Optional[Place]:
    pc, bits = getattr(record, "pc", None), getattr(record, "bits", None)
    return None if pc is None or bits is None or isinstance(record, Trap) and not bits else (pc, bits)


def _detail(record: Record) -> str:
    """The last line of a box: what the record gives or writes."""
    if isinstance(record, Commit):
        return f"= {_short(record.value)}"
    if isinstance(record, Load):
        early = f" at {record.at}" if record.at != record.stamp else ""
        return f"= {_short(record.value)}{early}"
    if isinstance(record, Store):
        return f"{_short(record.value)} to {_short(record.paddr)}"
    if isinstance(record, Atomic):
        return f"= {_short(record.value)}" + (f" new {_short(record.new)}" if record.wrote else "")
    if isinstance(record, Drain):
        return f"count {record.count}"
    if isinstance(record, Trap):
        return f"tval {_short(record.tval)}"
    return ""


def _subject(record: Record, texts: Dict[Place, str]) -> str:
    """The middle line of a box: the instruction, or the line."""
    place = _place_of(record)
    if place:
        return texts[place]
    if isinstance(record, (Drain, Refill)):
        return f"line {_short(record.line)}"
    if isinstance(record, Csrs):
        return f"mode {record.mode}"
    return f"pc {_short(record.pc)}" if isinstance(record, Regs) else ""


def _title(record: Record) -> str:
    if isinstance(record, Trap):
        sort = "interrupt" if record.is_interrupt else "cause"
        return f"Trap {sort} {record.cause & 63}"
    return record.kind


def arrows_of(report: Report, shown: Dict[Key, Record]) -> List[Arrow]:
    """The arrows of the notes whose both ends are shown."""
    found = []
    by_place = {(key.hart, key.seq): key for key in shown}
    for note in report.notes:
        if note.key not in shown:
            continue
        for run in dict.fromkeys(run.source for run in note.runs):
            if isinstance(run, OwnStore):
                source = by_place.get((note.key.hart, run.seq))
                if source:
                    found.append(Arrow(source, note.key, "forwarded"))
            elif run is not None and run in shown:
                found.append(Arrow(run, note.key, "read"))
    return found


class Picture:
    """Draws the records of a layout."""

    def __init__(self, layout: Layout, report: Report, places: List[Place]) -> None:
        self._layout = layout
        self._failure: Optional[Failure] = report.failure
        self._notes: Dict[Key, Note] = {note.key: note for note in report.notes}
        self._texts = disassemble(places)
        self._svg = ElementTree.Element(
            "svg",
            xmlns="http://www.w3.org/2000/svg",
            width=str(layout.width),
            height=str(layout.height),
            role="group",
        )
        self._svg.set("aria-label", "The records of the run, a lane for each hart, cycles across")

    def _add(
        self, name: str, parent: Optional[ElementTree.Element] = None, **words: object
    ) -> ElementTree.Element:
        attributes = {key.rstrip("_").replace("_", "-"): str(value) for key, value in words.items()}
        return ElementTree.SubElement(self._svg if parent is None else parent, name, attributes)

    def _text(self, parent: ElementTree.Element, at: Tuple[int, int], text: str, sort: str) -> None:
        if text:
            self._add("text", parent, x=at[0], y=at[1], class_=sort).text = text

    def draw(self, arrows: List[Arrow]) -> str:
        """The whole picture."""
        self._heads()
        self._axis()
        router = Router(self._layout)
        for arrow in arrows:
            self._arrow(arrow, router)
        for box in self._layout.boxes.values():
            self._box(box)
        return ElementTree.tostring(self._svg, encoding="unicode")

    def _heads(self) -> None:
        """The heads of arrows, one for each sort, and the pattern of the failing record."""
        defs = self._add("defs")
        for sort in ("read", "forwarded", "missed"):
            head = self._add(
                "marker", defs, id=f"head-{sort}", viewBox="0 0 8 8", refX=8, refY=4, orient="auto"
            )
            head.set("markerUnits", "userSpaceOnUse")
            head.set("markerWidth", "9")
            head.set("markerHeight", "9")
            self._add("path", head, d="M0,0 L8,4 L0,8 z", class_=f"head {sort}")
        hatch = self._add("pattern", defs, id="hatch", width=8, height=8, patternUnits="userSpaceOnUse")
        self._add("rect", hatch, width=8, height=8, fill="#fff3ee")
        self._add("path", hatch, d="M0,8 L8,0", class_="hatch")

    def _axis(self) -> None:
        """The cycles above the columns, and a line below each lane's room for arrows."""
        last = None
        for column, stamp in enumerate(self._layout.columns):
            left = self._layout.column_left(column)
            if stamp != last:
                skipped = last is not None and stamp > last + 1
                text = f"cycle {stamp}" if column == 0 or skipped else str(stamp)
                self._text(self._svg, (left, AXIS_HEIGHT - 12), text, "cycle")
                if skipped:
                    self._add("path", d=f"M{left - 20},{AXIS_HEIGHT} V{self._layout.height}", class_="skip")
            last = stamp
        for top, height in self._layout.lanes:
            self._add(
                "rect",
                x=0,
                y=top - CHANNEL + 6,
                width=self._layout.width,
                height=height + CHANNEL - MARGIN + 6,
                class_="lane",
            )

    def _arrow(self, arrow: Arrow, router: Router) -> None:
        boxes = self._layout.boxes
        points = router.route(boxes[arrow.source], boxes[arrow.target])
        path = " L".join(f"{x},{y}" for x, y in points)
        drawn = self._add(
            "path", d=f"M{path}", class_=f"arrow {arrow.sort}", marker_end=f"url(#head-{arrow.sort})"
        )
        self._add("title", drawn).text = f"{arrow.source} to {arrow.target}: {arrow.sort}"

    def description(self, key: Key, record: Record) -> str:
        """What is said of a record when it is pointed at: its dump line, instruction and note."""
        lines = [line_text(key, record)]
        place = _place_of(record)
        if place:
            lines.append(self._texts[place])
        note = self._notes.get(key)
        if note:
            lines.append(_note_text(note))
        if self._failure and key == self._failure.key:
            failure = self._failure
            lines.append(
                f"FAIL {failure.reason} {failure.name}: expected {failure.expected:016x}, found {failure.found:016x}"
            )
        return "\n".join(lines)

    def _box(self, box: Box) -> None:
        key, record = box.key, box.record
        is_failing = self._failure is not None and key == self._failure.key
        is_later = self._failure is not None and key > self._failure.key
        sort = "record" + " failing" * is_failing + " later" * is_later
        text = self.description(key, record)
        group = self._add("g", class_=sort, tabindex=-1, role="img", data_hart=key.hart, data_text=text)
        group.set("aria-label", text)
        group.set("id", f"record-{key}")
        tint = "url(#hatch)" if is_failing else TINTS[record.kind]
        self._add("rect", group, x=box.left, y=box.top, width=BOX_WIDTH, height=BOX_HEIGHT, rx=4, fill=tint)
        self._add("title", group).text = text
        title = f"FAIL {_title(record)}" if is_failing else _title(record)
        self._text(group, (box.left + 6, box.top + 14), _cut(title), "kind")
        letters = self._notes[key].letters if key in self._notes else ""
        if letters:
            self._text(group, (box.left + BOX_WIDTH - 6, box.top + 14), letters, "letters")
        if not isinstance(record, Beat):
            self._text(group, (box.left + 6, box.top + 28), _cut(_subject(record, self._texts)), "line")
            self._text(group, (box.left + 6, box.top + 42), _cut(_detail(record)), "line")


def _note_text(note: Note) -> str:
    """A note in words."""
    parts = []
    for run in note.runs:
        where = "the image" if run.source is None else str(run.source)
        if isinstance(run.source, OwnStore):
            where = f"the hart's own store, record {run.source.seq}"
        parts.append(f"bytes {run.first}-{run.last} from {where}")
    letters = f"rules {note.letters}" if note.letters else ""
    return "; ".join(part for part in (letters, *parts) if part)


def draw(layout: Layout, report: Report, arrows: List[Arrow]) -> str:
    """The picture of a layout as SVG."""
    places = [place for box in layout.boxes.values() for place in [_place_of(box.record)] if place]
    return Picture(layout, report, places).draw(arrows)
