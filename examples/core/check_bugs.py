#!/usr/bin/env python3
"""Runs each program of bugs/ on the cores without a fault, which has to pass, and with its fault, where the report has
to begin with the row of bugs/bugs.table."""

import re
import sys
from dataclasses import dataclass
from pathlib import Path

from runs import FOLDER, OUT, PASSED, judge, simulate

TABLE = FOLDER / "bugs" / "bugs.table"
FAULTS_OF_THE_TESTBENCH = re.compile(r'"(BUG_[A-Z_]+)": return')
FAILED = 1
# These programs end within some hundred cycles, and with a fault perhaps not at all.
CYCLES = "+cycles=2000"
NO_STATE = "+state=0"


@dataclass(frozen=True)
class Row:
    """What difftest has to say of a fault: the key, and the rest of the line."""

    key: str
    finding: str

    @property
    def line(self) -> str:
        """The first line of the report."""
        return f"FAIL {self.key} {self.finding}"


def finding_of(reason: str, expected: int, found: int) -> str:
    """A reason with its numbers, as a report prints it."""
    return f"reason={NUMBERS[reason]} {reason} expected={expected:016x} found={found:016x}"


def rows_of(table: Path) -> dict[str, Row]:
    """The rows of the table, by the fault's name."""
    rows = {}
    for line in table.read_text(encoding="ascii").splitlines():
        if not line or line.startswith("#"):
            continue
        name, key, reason, expected, found = line.split()
        stamp, hart, seq = key.split(".")
        if name in rows:
            raise ValueError(f"two rows for {name}")
        finding = finding_of(reason, int(expected, 16), int(found, 16))
        rows[name] = Row(f"stamp={stamp} hart={hart} seq={seq}", finding)
    return rows


# The numbers of the reasons, by docs/JUDGEMENT.md.
NUMBERS = {name: number for number, name in enumerate((
    "Pc Fetch Raises Kind Cause Tval Interrupt Value Address StoreData Order LoadSource Adopt Counter Undrained "
    "AtomicValue AtomicWrite Refill ScSuccess DrainCount DrainData Barrier State").split(), start=1)}


def problem_of(name: str, expected: Row) -> str:
    """What is wrong with the runs of a program, or nothing."""
    image = OUT / "bugs" / f"{name}.image"
    probes = OUT / "bugs" / f"{name}.probes"
    run = simulate(image, probes, CYCLES, NO_STATE)
    if run.status != PASSED:
        return f"without a fault the program does not pass: {run.text}"
    report = judge(image, probes)
    if report.status != PASSED:
        return f"without a fault: {report.first_line}"
    simulate(image, probes, CYCLES, NO_STATE, f"+bug={name}")
    report = judge(image, probes)
    if report.status != FAILED or report.first_line != expected.line:
        return f"expected {expected.line}\n    found    {report.first_line}"
    return ""


def main() -> int:
    """Tries all faults; one without a row, or a row without a fault, is a failure too."""
    rows = rows_of(TABLE)
    testbench = (FOLDER / "testbench" / "testbench.sv").read_text(encoding="ascii")
    faults = set(FAULTS_OF_THE_TESTBENCH.findall(testbench))
    if faults != set(rows):
        print(f"bugs: these are not both in the table and in the testbench: {sorted(faults ^ set(rows))}")
        return 1
    wrong = 0
    for name, expected in rows.items():
        problem = problem_of(name, expected)
        wrong += problem != ""
        print(f"{name}: {problem}" if problem else f"{name}: {expected.line}")
    print(f"bugs: {len(rows) - wrong} of {len(rows)} planted faults found as the table says")
    return int(wrong != 0)


if __name__ == "__main__":
    sys.exit(main())
