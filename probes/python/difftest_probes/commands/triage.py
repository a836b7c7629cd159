"""Groups many reports by reason, instruction and pc.

Each REPORT is the output of `pass` over a run, in a file of its own. Where a probe file of the same name
with the suffix .probes stands beside it, the failing record's instruction and pc are taken from it.
Prints a line for each group, the largest first. Status: 0 where all passed, else 1.
"""

from __future__ import annotations

import argparse
import json
import os
import xml.etree.ElementTree as ElementTree
from collections import defaultdict
from typing import Dict, List, NamedTuple, Optional, Tuple

from ..assembly import disassemble
from ..outputs import write_text
from ..reader import Malformed, Reader
from ..records import Key, Record, keyed
from ..report import NotAReport, Report, parse_report
from ..writer import ProbeError


def add_words(parser: argparse.ArgumentParser) -> None:
    """The words of the command."""
    parser.add_argument("reports", nargs="+", metavar="REPORT", help="outputs of `pass`")
    parser.add_argument("--probes", default=".probes", metavar="SUFFIX", help="of the probe files: .probes")
    parser.add_argument("--json", metavar="FILE", help="write the groups as JSON")
    parser.add_argument("--junit", metavar="FILE", help="write each report as a JUnit test case")


class Group(NamedTuple):
    """What the reports of one group share."""

    reason: str
    instruction: str
    pc: str


class Outcome(NamedTuple):
    """A report, and the group that it falls into."""

    path: str
    report: Optional[Report]
    first_line: str
    group: Group

    @property
    def has_passed(self) -> bool:
        """Whether the verdict is PASS."""
        return self.report is not None and self.report.verdict == "PASS"


def _failing_record(path: str, key: Key) -> Optional[Record]:
    try:
        with open(path, "rb") as stream:
            for found, record in keyed(Reader(stream)):
                if found == key:
                    return record
    except (OSError, Malformed):
        pass
    return None


def _group(report: Report, probes: str) -> Group:
    if report.failure is None:
        return Group(report.refusal or report.verdict, "", "")
    record = _failing_record(probes, report.failure.key)
    pc, bits = getattr(record, "pc", None), getattr(record, "bits", None)
    if record is None:
        return Group(report.failure.name, "no probe file", "")
    if pc is None:
        return Group(report.failure.name, record.kind, "")
    text = record.kind if bits is None else disassemble([(pc, bits)])[pc, bits]
    return Group(report.failure.name, text, f"{pc:016x}")


def _outcome(path: str, suffix: str) -> Outcome:
    with open(path, "rb") as source:
        text = source.read().decode("latin-1")
    first = text.split("\n", 1)[0]
    try:
        report = parse_report(text)
    except NotAReport as fault:
        return Outcome(path, None, first, Group(f"no report: {fault}", "", ""))
    return Outcome(path, report, first, _group(report, os.path.splitext(path)[0] + suffix))


def _json_of(groups: List[Tuple[Group, List[Outcome]]]) -> str:
    rows = [
        {**group._asdict(), "count": len(members), "reports": [member.path for member in members]}
        for group, members in groups
    ]
    return json.dumps({"groups": rows}, indent=2) + "\n"


def _junit_of(outcomes: List[Outcome]) -> str:
    failures = sum(outcome.report is not None and not outcome.has_passed for outcome in outcomes)
    errors = sum(outcome.report is None for outcome in outcomes)
    suite = ElementTree.Element(
        "testsuite", name="difftest", tests=str(len(outcomes)), failures=str(failures), errors=str(errors)
    )
    for outcome in outcomes:
        case = ElementTree.SubElement(suite, "testcase", classname="difftest", name=outcome.path)
        if not outcome.has_passed:
            sort = "error" if outcome.report is None else "failure"
            what = " ".join(part for part in outcome.group if part)
            ElementTree.SubElement(case, sort, message=what).text = outcome.first_line
    return ElementTree.tostring(suite, encoding="unicode") + "\n"


def run(words: argparse.Namespace) -> int:
    """Prints the groups."""
    outcomes = [_outcome(path, words.probes) for path in words.reports]
    by_group: Dict[Group, List[Outcome]] = defaultdict(list)
    for outcome in outcomes:
        by_group[outcome.group].append(outcome)
    groups = sorted(by_group.items(), key=lambda item: (-len(item[1]), item[0]))
    for group, members in groups:
        what = "  ".join(part for part in group if part)
        print(f"{len(members):6}  {what}  ({members[0].path}{', ..' if len(members) > 1 else ''})")
    try:
        if words.json:
            write_text(words.json, _json_of(groups))
        if words.junit:
            write_text(words.junit, _junit_of(outcomes))
    except OSError as fault:
        raise ProbeError(f"{fault.filename}: {fault.strerror}") from None
    return 0 if all(outcome.has_passed for outcome in outcomes) else 1
