#!/usr/bin/env python3
"""Judges what the RISC-V formal interface of hart 0 tells, by the adapter of probes/sv: each program of bugs/ for one
hart passes without its fault, and with it fails for the reason of the table, or for the one that is named here."""

import sys

from check_bugs import CYCLES, FAILED, NO_STATE, TABLE, finding_of, rows_of
from runs import OUT, PASSED, judge, simulate

PASS = "PASS"
# These the adapter cannot see, since it derives when loads read and stores drain. The hart of BUG_INTERRUPT retires
# nothing any more, so that the interface is silent.
OTHERWISE = {
    "BUG_FENCE": PASS,
    "BUG_DRAIN_BYTE": PASS,
    "BUG_MERGE": PASS,
    "BUG_ACQUIRE": PASS,
    "BUG_DRAIN_COUNT": PASS,
    "BUG_INTERRUPT": PASS,
    # The store of 3 has drained by what is derived, and the atomic read the 0 from before it.
    "BUG_ATOMIC_ORDER": finding_of("AtomicValue", 3, 0),
}
# Two harts write what the other one reads.
FOR_TWO_HARTS = {"BUG_STORE_CONDITIONAL"}


def problem_of(name: str, expected: str) -> str:
    """What is wrong with the runs of a program, or nothing."""
    image = OUT / "bugs" / f"{name}.image"
    probes, rvfi = OUT / "bugs" / f"{name}.probes", OUT / "bugs" / f"{name}.rvfi.probes"
    simulate(image, probes, CYCLES, NO_STATE, f"+rvfi={rvfi}")
    report = judge(image, rvfi)
    if report.status != PASSED:
        return f"without a fault: {report.first_line}"
    simulate(image, probes, CYCLES, NO_STATE, f"+rvfi={rvfi}", f"+bug={name}")
    report = judge(image, rvfi)
    if expected == PASS:
        return "" if report.status == PASSED else f"expected PASS\n    found    {report.first_line}"
    if report.status != FAILED or not report.first_line.endswith(f" {expected}"):
        return f"expected {expected}\n    found    {report.first_line}"
    return ""


def main() -> int:
    """Tries all programs for one hart."""
    rows = {name: row.finding for name, row in rows_of(TABLE).items() if name not in FOR_TWO_HARTS}
    wrong = 0
    for name, finding in rows.items():
        expected = OTHERWISE.get(name, finding)
        problem = problem_of(name, expected)
        wrong += problem != ""
        if problem:
            print(f"{name}: {problem}")
    print(f"rvfi: {len(rows) - wrong} of {len(rows)} faults judged as expected")
    return int(wrong != 0)


if __name__ == "__main__":
    sys.exit(main())
