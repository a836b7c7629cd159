"""Explains the FAIL of a run.

Runs `difftest pass --sources`, and prints the failing record with its instruction in assembly, what was
compared, the records of its hart before it, who wrote the bytes that it read, what docs/JUDGEMENT.md says
of the reason, and whether the program left the profile. The program is the one that DIFFTEST_PROGRAM
names, else that of the repository. Status: 0 for a PASS, 1 for a FAIL, 2 where there is no verdict.
"""

from __future__ import annotations

import argparse
import textwrap
from typing import Dict, List, Optional, Sequence, Tuple

from ..assembly import Place, disassemble
from ..evidence import Evidence, gather
from ..hints import hints
from ..profile import finding_of
from ..program import check
from ..reasons import reason_text
from ..records import Drain, Key, Load, Record, Refill, Trap
from ..report import Failure, Note, OwnStore, Report
from ..text import body_text
from ..writer import ProbeError

COLUMNS = 100


def add_words(parser: argparse.ArgumentParser) -> None:
    """The words of the command."""
    parser.add_argument("image", help="the image of the run")
    parser.add_argument("probes", help="its probe file")
    parser.add_argument("--records", type=int, default=12, metavar="N", help="how many records before it")
    parser.add_argument("--program", help="the path of difftest")


def _place_of(record: Record) -> Optional[Place]:
    pc, bits = getattr(record, "pc", None), getattr(record, "bits", None)
    return None if pc is None or bits is None or isinstance(record, Trap) and not bits else (pc, bits)


def _short_text(record: Record) -> str:
    """The line of a record, with the bytes of a line left out."""
    if isinstance(record, Drain):
        return f"Drain line={record.line:016x} mask={record.mask:016x} count={record.count}"
    if isinstance(record, Refill):
        return f"Refill line={record.line:016x}"
    text = body_text(record)
    return text if len(text) < COLUMNS else text[: COLUMNS - 3] + "..."


def _lines(rows: Sequence[Tuple[Key, Record]], mark: Key) -> List[str]:
    """The rows as lines, each with its instruction; the marked one has an arrow."""
    places = [place for place in (_place_of(record) for _, record in rows) if place]
    texts: Dict[Place, str] = disassemble(places)
    lines = []
    for key, record in rows:
        place = _place_of(record)
        arrow = "->" if key == mark else "  "
        lines.append(f"{arrow} {str(key):14} {_short_text(record)}")
        if place:
            lines.append(f"{'':18}{texts[place]}")
    return lines


def _writer_lines(note: Optional[Note], evidence: Evidence) -> List[str]:
    """Where the bytes of an allowed load came from."""
    lines = []
    for part in note.runs if note else ():
        what = f"bytes {part.first} to {part.last}"
        if isinstance(part.source, OwnStore):
            lines.append(f"{what}: the hart's own store, its record {part.source.seq}, not yet drained")
        elif part.source is None:
            lines.append(f"{what}: the image")
        else:
            record = evidence.writers.get(part.source)
            lines.append(f"{what}: {part.source} {_short_text(record) if record else ''}")
    return lines


def _line_history(failure: Failure, record: Record, evidence: Evidence) -> List[str]:
    """The last writes and own stores to the bytes that the failing record speaks of."""
    if evidence.address is None:
        return []
    at = record.at if isinstance(record, Load) else record.stamp
    title = f"Writes to the line of {evidence.address:x} up to cycle {at}, and the hart's own stores to it:"
    rows = evidence.of_line
    if not rows:
        return [title, "   none: memory is the image's", ""]
    return [title, *_lines(rows, failure.key), ""]


def _reason_lines(failure: Failure) -> List[str]:
    text = reason_text(failure.reason)
    if text is None:
        return ["docs/JUDGEMENT.md says what was compared and where to look.", ""]
    lines = [
        f"Reason {failure.reason} {failure.name}",
        f"   expected {failure.expected:016x}: {text.expected}",
        f"   found    {failure.found:016x}: {text.found}",
        f"   look for {text.look}",
    ]
    for paragraph in text.more.split("\n"):
        if paragraph.strip():
            hang = "     " if paragraph.startswith("- ") else "   "
            lines += textwrap.wrap(paragraph, COLUMNS, initial_indent="   ", subsequent_indent=hang)
    return [*lines, ""]


def _hint_lines(failure: Failure, rows: Sequence[Tuple[Key, Record]]) -> List[str]:
    """What of the failing record may lie outside the profile, and of the instruction before it."""
    lines = [f"Hint: {hint}" for hint in hints(failure, rows[-1][1])]
    for key, record in rows[-2:-1]:
        place = _place_of(record)
        finding = finding_of(place[1]) if place else None
        if finding and finding.is_fault:
            lines.append(f"Hint: the record before it, {key}: {finding.text}")
    return lines


def explanation(report: Report, evidence: Evidence) -> List[str]:
    """The lines that explain a FAIL."""
    failure = report.failure
    if failure is None or not evidence.before or evidence.before[-1][0] != failure.key:
        raise ProbeError("the probe file has no record with the key of the FAIL line")
    record = evidence.before[-1][1]
    lines = [
        f"FAIL in cycle {failure.key.stamp}, hart {failure.key.hart}, record {failure.key.seq} of that hart:"
        f" {failure.name}",
        "",
        *_reason_lines(failure),
        f"The last records of hart {failure.key.hart}:",
        *_lines(evidence.before, failure.key),
        "",
        *_line_history(failure, record, evidence),
    ]
    sources = [(note, _writer_lines(note, evidence)) for note in evidence.earlier_notes(report)]
    for note, text in sources:
        lines += [f"Record {note.key} before it read:", *("   " + line for line in text)]
    return lines + _hint_lines(failure, evidence.before)


def run(words: argparse.Namespace) -> int:
    """Prints the explanation."""
    report = check(words.image, words.probes, program=words.program)
    if report.refusal:
        print(f"{report.refusal}: no verdict; `difftest-probes info` says more of a malformed file")
        return 2
    if report.failure is None:
        print(f"PASS: {report.records} records, {report.writes} writes; there is nothing to explain")
        return 0
    evidence = gather(words.probes, report, max(1, words.records + 1))
    print("\n".join(explanation(report, evidence)).rstrip())
    return 1
