"""Made pairs, cut anywhere: closed they have a verdict, and no FAIL that the whole run has not.

Every front of a run is closed as `watch` closes it while the file grows byte by byte. Many fronts give the
same closed file, and each different one is judged once. Where it comes first and where it comes last, the
command `close` has to make the same bytes of the front.

The gate tries a sample; with DIFFTEST_WHOLE=1 every byte of the first 150 pairs is tried, in both versions.
"""

from __future__ import annotations

import contextlib
import io
import sys
import tempfile
import unittest
from argparse import Namespace
from itertools import groupby
from operator import itemgetter
from typing import Iterator, NamedTuple, Optional, Sequence, Tuple

from difftest_probes import Malformed, check, parse_report, read
from difftest_probes.commands import close
from difftest_probes.report import Failure, Report
from difftest_probes.settled import front_of
from difftest_probes.watching import Follower
from unittest.mock import patch

from .support import (
    IS_WHOLE,
    CommandCase,
    bytes_of,
    made_pair,
    program_or_skip,
    second_answer,
    second_reading,
)

# Of the gate: small pairs that are cut at every byte, some of them malformed, and others at some bytes.
EVERY_BYTE = (25, 27, 39, 49, 74, 79, 98, 100, 112, 136, 140, 145, 150)
SOME_BYTES = (1, 4, 36, 174, 183)
STEP = 61
UNTIL = range(1, 31)
WHOLE = range(1, 151)
# `close` reads a front from its beginning, so of longer runs it closes fewer fronts.
CLOSED_AFRESH = 200


class MadePairs(CommandCase):
    """Runs over made pairs, judged by the program, or by the second checker where there is none."""

    def setUp(self) -> None:
        super().setUp()
        try:
            self.built: Optional[str] = program_or_skip()
        except unittest.SkipTest:
            self.built = None

    def put_pair(self, number: int) -> Tuple[str, str]:
        """The paths of a pair."""
        image, probes = made_pair(number)
        return self.put("image", image), self.put("probes", probes)

    def judge(self, image: str, probes: str) -> Report:
        """The report."""
        if self.built:
            return check(image, probes, sources=False, program=self.built)
        return parse_report(second_answer(image, probes)[1])


class Run(NamedTuple):
    """The file of a run, and how many records it has: None where it is malformed."""

    number: int
    data: bytes
    records: Optional[int]


def runs_of(number: int) -> Iterator[Run]:
    """The file of a made pair in both versions; a malformed one as it is."""
    probes = made_pair(number)[1]
    found, _ = second_reading(probes)
    if found is None:
        yield Run(number, probes, None)
        return
    with tempfile.NamedTemporaryFile() as copy:
        copy.write(probes)
        copy.flush()
        file = read(copy.name)
    for version in (1, 2):
        data = bytes_of(file.records, file.header.harts, version, file.header.wide)
        if version == file.header.version:
            assert data == probes, f"the bytes of pair {number} are not the only ones of its records"
        yield Run(number, data, len(file.records))


class Figures:
    """What was tried."""

    def __init__(self) -> None:
        self.runs = self.cuts = self.files = self.fails = self.refused = 0

    def add(self, cuts: int, is_fail: bool) -> None:
        """Counts a closed file that came of so many cuts."""
        self.cuts += cuts
        self.files += 1
        self.fails += is_fail

    def __str__(self) -> str:
        return " ".join(f"{name}={count}" for name, count in vars(self).items())


class ClosedCuts(MadePairs):
    """Every front, closed."""

    def close_growing(self, follower: Follower) -> bytes:
        """The closed bytes of what a follower has read."""
        if follower.ended:
            return self.get("growing")
        follower.write_settled(self.path("settled"))
        return self.get("settled")

    def assert_close_makes(self, closed: bytes, run: Run, cut: int) -> None:
        """The command `close` makes these bytes of the front up to a cut."""
        front = self.put("front", run.data[:cut])
        with contextlib.redirect_stdout(io.StringIO()):
            close.run(Namespace(file=front, output=self.path("closed")))
        self.assertTrue(self.get("closed") == closed, (run.number, cut))

    def failure_of(self, closed: bytes, place: Tuple[int, int]) -> Optional[Failure]:
        """The failure of a closed file, which has a verdict."""
        report = self.judge(self.path("image"), self.put("closed", closed))
        self.assertIsNone(report.refusal, place)
        return report.failure

    def fronts_of(self, data: bytes, cuts: Sequence[int]) -> Iterator[Tuple[bytes, int]]:
        """The closed bytes of each front with its cut, up to the End or a fault that is no cut."""
        self.put("growing", b"")
        follower, written = Follower(self.path("growing")), 0
        try:
            with open(self.path("growing"), "wb", buffering=0) as out:
                for cut in cuts:
                    out.write(data[written:cut])
                    written = cut
                    while follower.read_on(1000):
                        pass
                    yield self.close_growing(follower), cut
                    if follower.ended:
                        return
        except Malformed:
            return
        finally:
            follower.close()

    def try_run(self, run: Run, step: int, figures: Figures) -> None:
        """Tries a run's cuts."""
        image, _ = self.put_pair(run.number)
        whole = self.judge(image, self.put("whole", run.data))
        self.assertEqual(whole.refusal is None, run.records is not None)
        stride = 1 + (run.records or 0) // CLOSED_AFRESH
        cuts, tried = range(16, len(run.data) + 1, step), 0
        for files, (closed, group) in enumerate(groupby(self.fronts_of(run.data, cuts), itemgetter(0))):
            same = [cut for _, cut in group]
            failure = self.failure_of(closed, (run.number, same[0]))
            if failure is not None and run.records is not None:
                self.assertEqual(failure, whole.failure, (run.number, same[0]))
            if files % stride == 0:
                self.assert_close_makes(closed, run, same[0])
                self.assert_close_makes(closed, run, same[-1])
            figures.add(len(same), failure is not None)
            tried += len(same)
        self.assert_refused(run, cuts[tried:])
        figures.refused += len(cuts) - tried
        figures.runs += 1

    def assert_refused(self, run: Run, cuts: Sequence[int]) -> None:
        """The command `close` refuses these fronts, and the run is malformed where there are some."""
        self.assertTrue(run.records is None or not cuts, run.number)
        for cut in (*cuts[:1], *cuts[-1:]):
            with self.assertRaises(Malformed, msg=(run.number, cut)):
                front_of(self.put("front", run.data[:cut]))

    @patch("difftest_probes.watching.CHECKPOINT_RECORDS", 8)
    def test_cuts(self) -> None:
        wanted = [(number, 1) for number in (WHOLE if IS_WHOLE else EVERY_BYTE)]
        wanted += [] if IS_WHOLE else [(number, STEP) for number in SOME_BYTES]
        figures = Figures()
        for number, step in wanted:
            for run in runs_of(number):
                self.try_run(run, step, figures)
            if IS_WHOLE:
                print(f"pair {number}: so far {figures}", file=sys.stderr, flush=True)
        # The sample tells something: fronts of many lengths, FAILs that a front already has, and faults.
        self.assertGreater(figures.files, 300)
        self.assertGreater(figures.fails, 30)
        self.assertGreater(figures.refused, 0)

    def test_cut_headers_are_refused(self) -> None:
        probes = made_pair(1)[1]
        for length in range(16):
            path = self.put("front", probes[:length])
            with self.assertRaises(Malformed):
                front_of(path)

    def test_a_mere_end_would_not_do(self) -> None:
        """A front that is not settled can fail where the run passes, or the rule were idle."""
        found = False
        for number in range(1, 40):
            image, path = self.put_pair(number)
            file = second_reading(made_pair(number)[1])[0]
            if file is None or self.judge(image, path).failure is not None:
                continue
            found = found or self.fails_where_merely_cut(image, path)
            if found:
                return
        self.fail("no front of a passing run fails")

    def fails_where_merely_cut(self, image: str, path: str) -> bool:
        """Whether some front with an End, but not settled, fails."""
        file = read(path)
        for count in range(1, len(file.records), 5):
            mere = bytes_of(file.records[:count], *file.header)
            if self.judge(image, self.put("mere", mere)).failure is not None:
                return True
        return False


class CutUntil(MadePairs):
    """Failing runs, cut behind the failing cycle."""

    def test_fail_line_stays(self) -> None:
        tried = shorter = 0
        for number in WHOLE if IS_WHOLE else UNTIL:
            image, path = self.put_pair(number)
            failure = self.judge(image, path).failure
            if not failure:
                continue
            status, said = self.run_command("cut", "--until", str(failure.key.stamp), path, self.path("out"))
            self.assertEqual(status, 0, said)
            self.assertEqual(self.judge(image, self.path("out")).failure, failure, number)
            tried += 1
            shorter += len(self.get("out")) < len(self.get("probes"))
        self.assertGreater(tried, 8)
        self.assertGreater(shorter, 5)


if __name__ == "__main__":
    unittest.main()
