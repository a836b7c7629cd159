"""Properties of all lawful records, tried by hypothesis."""

from __future__ import annotations

import io
import os
import subprocess
import tempfile
import unittest
from typing import Any, List

from difftest_probes import Reader, Record, keyed, line_text
from difftest_probes.records import (
    KINDS,
    RAM_END,
    RAM_START,
    Atomic,
    Csrs,
    Drain,
    Load,
    Refill,
    Regs,
    Trap,
)

from .support import WORD, bytes_of, program_or_skip, second_reading

try:
    from hypothesis import HealthCheck, given, settings
    from hypothesis import strategies as st
except ImportError:
    raise unittest.SkipTest("hypothesis is missing (Debian: python3-hypothesis)") from None

settings.register_profile(
    "gate",
    max_examples=80,
    deadline=None,
    derandomize=True,
    database=None,
    suppress_health_check=list(HealthCheck),
)
settings.load_profile("gate")

HARTS = st.integers(0, 7)
WORDS = st.one_of(st.integers(0, WORD), st.integers(0, 300), st.just(WORD))
BITS = st.one_of(st.integers(0, 0xFFFF), st.integers(0, (1 << 30) - 1).map(lambda high: high << 2 | 3))
LINES = st.integers(0, (RAM_END - RAM_START) // 64 - 1).map(lambda n: RAM_START + 64 * n)
CONTENT = st.binary(min_size=64, max_size=64)


@st.composite
def drains(draw: Any, hart: int, stamp: int) -> Drain:
    """Any lawful drain."""
    mask = draw(st.integers(1, WORD))
    content = bytes(byte if mask >> n & 1 else 0 for n, byte in enumerate(draw(CONTENT)))
    return Drain(hart, stamp, draw(LINES), mask, draw(st.integers(1, 0xFFFF)), content)


@st.composite
def atomics(draw: Any, hart: int, stamp: int) -> Atomic:
    """Any lawful atomic."""
    width, wrote = draw(st.sampled_from((4, 8))), draw(st.integers(0, 1))
    place = RAM_START + width * draw(st.integers(0, (RAM_END - RAM_START) // width - 1))
    new = draw(st.integers(0, (1 << 8 * width) - 1)) if wrote else 0
    return Atomic(hart, stamp, draw(WORDS), draw(BITS), draw(WORDS), place, width, wrote, new)


@st.composite
def records(draw: Any, hart: int, stamp: int) -> Record:
    """Any lawful record of a hart and a cycle."""
    kind = draw(st.sampled_from(KINDS))
    if kind is Drain:
        return draw(drains(hart, stamp))  # type: ignore[no-any-return]
    if kind is Atomic:
        return draw(atomics(hart, stamp))  # type: ignore[no-any-return]
    if kind is Refill:
        return Refill(hart, stamp, draw(LINES), draw(CONTENT))
    if kind is Regs:
        return Regs(hart, stamp, draw(WORDS), tuple(draw(WORDS) for _ in range(31)))
    if kind is Csrs:
        return Csrs(hart, stamp, draw(st.sampled_from((0, 1, 3))), tuple(draw(WORDS) for _ in range(17)))
    values = [draw(BITS) if size == 4 else draw(WORDS) for _, size in kind.numbers]
    if kind is Load:
        values[3] = draw(st.integers(0, stamp))
    if kind is Trap and values[2] >> 63:
        values[1] = 0
    return kind(hart, stamp, *values)  # type: ignore[no-any-return]


@st.composite
def files(draw: Any) -> List[Record]:
    """The records of any lawful file of eight harts."""
    stamps, found = [0] * 8, []
    for _ in range(draw(st.integers(0, 12))):
        hart = draw(HARTS)
        stamps[hart] = min(WORD, stamps[hart] + draw(st.one_of(st.integers(0, 3), WORDS)))
        found.append(draw(records(hart, stamps[hart])))
    return found


class Properties(unittest.TestCase):
    """What holds of every file."""

    @given(files(), st.sampled_from((1, 2)), st.booleans())
    def test_written_and_read_back(self, found: List[Record], version: int, wide: bool) -> None:
        reader = Reader(io.BytesIO(bytes_of(found, 8, version, wide)))
        self.assertEqual(list(reader), found)
        self.assertEqual(reader.header, (8, version, wide))

    @given(files(), st.sampled_from((1, 2)))
    def test_second_checker_reads_it(self, found: List[Record], version: int) -> None:
        seen, refusal = second_reading(bytes_of(found, 8, version))
        self.assertEqual(refusal, "")
        assert seen is not None
        keys = [tuple(key) for key, _ in keyed(found)]
        self.assertEqual([tuple(record.key) for record in seen], keys)  # type: ignore[attr-defined]

    @settings(max_examples=15)
    @given(files())
    def test_program_prints_and_converts_it(self, found: List[Record]) -> None:
        program = program_or_skip()
        one, two = bytes_of(found, 8, 1), bytes_of(found, 8, 2)
        lines = [line_text(key, record) for key, record in keyed(found)] + [f"END count={len(found)}"]
        with tempfile.TemporaryDirectory() as folder:
            path = os.path.join(folder, "probes")
            for data, other, version in ((one, two, "2"), (two, one, "1")):
                with open(path, "wb") as out:
                    out.write(data)
                dumped = subprocess.run([program, "dump", path], stdout=subprocess.PIPE, check=False)
                self.assertEqual(dumped.stdout.decode(), "".join(line + "\n" for line in lines))
                words = [program, "convert", "--to", version, path]
                turned = subprocess.run(words, stdout=subprocess.PIPE, check=False)
                self.assertEqual(turned.stdout, other)


if __name__ == "__main__":
    unittest.main()
