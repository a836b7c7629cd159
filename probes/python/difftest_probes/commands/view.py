"""Draws a run as one page of HTML that needs nothing else.

A lane for each hart, cycles across, and arrows from a write to the load that read it: solid from a drain
or an atomic, dashed from the hart's own store that was forwarded. A failing record is hatched and marked
FAIL; a dotted arrow comes from the last write to its bytes that it could see. Pointing at a record, or
going to it by the arrow keys, shows its line of the dump, its instruction and where its bytes came from.

Shown are the records around a FAIL, else the first ones; --from and --to choose other cycles, and --most
how many records.
"""

from __future__ import annotations

import argparse
import html
import itertools
from collections import deque
from typing import Deque, Dict, Iterator, List, Optional, Tuple

from ..drawing import Arrow, arrows_of, draw
from ..evidence import Evidence, gather
from ..isa.compressed import meaning_of
from ..layout import AXIS_HEIGHT, CHANNEL, lay_out
from ..ordered import Row, in_order
from ..outputs import write_text
from ..page import PAGE
from ..program import check
from ..reader import Reader
from ..records import LINE_BYTES, Atomic, Drain, Key, Load, Record, Store
from ..report import Report
from ..writer import ProbeError

# Of the records behind a failing one so many are shown.
LATER_RECORDS = 12


def add_words(parser: argparse.ArgumentParser) -> None:
    """The words of the command."""
    parser.add_argument("image", help="the image of the run")
    parser.add_argument("probes", help="its probe file")
    parser.add_argument("-o", "--output", required=True, help="the page to write")
    parser.add_argument("--from", dest="first", type=int, metavar="C", help="the first cycle to show")
    parser.add_argument("--to", dest="last", type=int, metavar="C", help="the last cycle to show")
    parser.add_argument("--most", type=int, default=160, metavar="N", help="how many records to show: 160")
    parser.add_argument("--program", help="the path of difftest")


def _chosen(words: argparse.Namespace, rows: Iterator[Row], report: Report) -> List[Row]:
    """The records to show, in the order of keys."""
    first, last = words.first or 0, words.last
    inside = (row for row in rows if first <= row[0].stamp and (last is None or row[0].stamp <= last))
    if report.failure is None or words.first is not None or last is not None:
        return list(itertools.islice(inside, words.most))
    failing = report.failure.key
    before: Deque[Row] = deque(maxlen=words.most)
    for row in inside:
        before.append(row)
        if row[0] == failing:
            break
    return [*before, *itertools.islice(inside, LATER_RECORDS)]


def _covers(write: Record, record: Record) -> bool:
    """Whether a write covers a byte that a record read."""
    if not isinstance(record, (Atomic, Load)):
        return False
    instruction = meaning_of(record.bits)
    width, start = instruction.width if instruction else 1, record.paddr
    if isinstance(write, Drain):
        places = range(start - write.line, start - write.line + width)
        return any(0 <= place < LINE_BYTES and write.mask >> place & 1 for place in places)
    if isinstance(write, Atomic):
        return write.paddr < start + width and start < write.paddr + write.width
    return False


def _missed(report: Report, evidence: Evidence) -> List[Arrow]:
    """The arrow to a failing load or atomic from the last write to its bytes that it could see."""
    if report.failure is None or not evidence.before:
        return []
    failing = evidence.before[-1][1]
    writes = [
        key for key, record in evidence.of_line if not isinstance(record, Store) and _covers(record, failing)
    ]
    return [Arrow(writes[-1], report.failure.key, "missed")] if writes else []


def _labels(harts: int, lanes: List[Tuple[int, int]], total: int) -> str:
    """The names of the lanes, beside the picture."""
    parts = [f'<div class="labels" style="height:{total}px">']
    for hart in range(harts):
        top, height = lanes[hart]
        style = f"top:{top - CHANNEL + 6}px;height:{height + CHANNEL - 6}px"
        parts.append(f'<div style="{style}">hart {hart}</div>')
    parts.append(f'<div style="top:0;height:{AXIS_HEIGHT}px"></div></div>')
    return "".join(parts)


def _headline(report: Report) -> str:
    if report.failure is None:
        return "PASS"
    failure = report.failure
    key = failure.key
    return f"FAIL {failure.reason} {failure.name} in cycle {key.stamp}, hart {key.hart}, record {key.seq}"


def _summary(words: argparse.Namespace, report: Report, shown: List[Row]) -> str:
    lines = []
    if report.failure:
        lines.append(f"expected {report.failure.expected:016x}, found {report.failure.found:016x}")
    if shown:
        cycles = f"cycles {shown[0][0].stamp} to {shown[-1][0].stamp}"
        lines.append(f"{len(shown)} records shown, {cycles}")
    lines.append(f"image {words.image}, probes {words.probes}")
    return "".join(f"<p>{html.escape(line)}</p>" for line in lines)


def page_of(words: argparse.Namespace, report: Report, rows: Iterator[Row], harts: int) -> str:
    """The page."""
    evidence = gather(words.probes, report, 1) if report.failure else Evidence()
    shown: Dict[Key, Record] = dict(_chosen(words, rows, report))
    missed = _missed(report, evidence)
    for arrow in missed:
        if arrow.target in shown:
            shown.setdefault(arrow.source, dict(evidence.of_line)[arrow.source])
    layout = lay_out(shown.items(), harts)
    arrows = arrows_of(report, shown) + [arrow for arrow in missed if arrow.target in shown]
    picture = draw(layout, report, arrows)
    focus: Optional[Key] = report.failure.key if report.failure else None
    values = {
        "title": html.escape(_headline(report)),
        "class": report.verdict.lower(),
        "summary": _summary(words, report, sorted(shown.items())),
        "labels": _labels(harts, layout.lanes, layout.height),
        "picture": picture,
        "focus": str(focus) if focus else "",
    }
    page = PAGE
    for name, value in values.items():
        page = page.replace(f"@{name}@", value)
    return page


def run(words: argparse.Namespace) -> int:
    """Writes the page."""
    report = check(words.image, words.probes, program=words.program)
    if report.refusal:
        raise ProbeError(f"{words.probes}: {report.refusal}")
    with open(words.probes, "rb") as stream:
        reader = Reader(stream)
        page = page_of(words, report, in_order(reader), reader.header.harts)
    write_text(words.output, page)
    print(f"{words.output}: {_headline(report)}")
    return 0
