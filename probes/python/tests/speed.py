"""How fast files are read and written: `checks/probe-package --speed`, on a machine that does nothing else.

The records are a loop of two harts: commits, loads, stores and drains, a beat or the registers now and then,
and values of all lengths. The best of some runs counts, by processor time, since other work on the machine only slows. Status: 1
where a version is read at less than 200,000 records a second.
"""

from __future__ import annotations

import io
import sys
import time
from typing import List

from difftest_probes import Beat, Commit, Drain, Header, Load, Reader, Record, Regs, Store, write_file

RAM, DATA = 0x80000000, 0x80001000
LOOPS, RUNS = 25_000, 5
LEAST_RATE = 200_000


def loop_records() -> List[Record]:
    """Two harts that count in memory, each in lines of its own."""
    rows: List[Record] = []
    for n in range(LOOPS):
        value = n * 0x9E3779B97F4A7C15 % (1 << 64) >> n % 64
        for hart in (0, 1):
            line, pc = DATA + 64 * (2 * (n % 32) + hart), RAM + 16 * (n % 100)
            content = value.to_bytes(8, "little") + bytes(56)
            rows.append(Load(hart, 5 * n + 1, pc, 0x0002B403, value, 5 * n, line))
            rows.append(Commit(hart, 5 * n + 2, pc + 4, 0x00140413, value))
            rows.append(Store(hart, 5 * n + 3, pc + 8, 0x0082B023, line, value))
            rows.append(Drain(hart, 5 * n + 5, line, 0xFF, 1, content))
            if n % 16 == 0:
                rows.append(Beat(hart, 5 * n + 5))
            if n % 64 == 0:
                x = tuple(value if value >> place & 1 else 0 for place in range(31))
                rows.append(Regs(hart, 5 * n + 5, pc + 12, x))
    return rows


def rate_of_reading(data: bytes) -> float:
    """How many records of a file are read in a second."""
    start = time.process_time()
    count = sum(1 for _ in Reader(io.BytesIO(data)))
    return count / (time.process_time() - start)


def main() -> int:
    """Prints the rates."""
    rows, slow = loop_records(), False
    for version in (1, 2):
        stream = io.BytesIO()
        start = time.process_time()
        write_file(stream, Header(2, version), rows)
        written = len(rows) / (time.process_time() - start)
        rate = max(rate_of_reading(stream.getvalue()) for _ in range(RUNS))
        print(f"version {version}: {rate:,.0f} records a second read, {written:,.0f} written")
        slow = slow or rate < LEAST_RATE
    return 1 if slow else 0


if __name__ == "__main__":
    sys.exit(main())
