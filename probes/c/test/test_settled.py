"""Files of runs that are cut short, judged by the second checker."""

import os
import random
import signal
import struct
import subprocess
import tempfile
import time
import unittest
from typing import ClassVar, Iterator, Optional

from calls import (CALL_SMALL_WRITER, CALL_WRITER, CLOSED, END_BYTES, LAYOUTS, OK, PROBES, SV48, TAGS,
                   VERSION_2, Call, answer, calls_of, close, read, run, spell_file)
# pylint: disable=wrong-import-order
from probe_generator.campaign import make_pair
from second_opinion.probe_file import ProbeFile
from second_opinion.report import Failure, judge_file

# How many made pairs are tried: the gate takes fewer than a whole run.
PAIRS = int(os.environ.get("PAIRS", "60"))
CUTS = 3
DATA = os.path.join(os.path.dirname(PROBES), "crates", "difftest", "data")


def settled(harts: int, calls: "list[Call]") -> "list[Call]":
    """The records below the least last stamp of all harts, 0 for a hart without a record."""
    last_stamps = dict.fromkeys(range(harts), 0)
    for call in calls:
        last_stamps[call.hart] = max(last_stamps[call.hart], call.stamp)
    return [call for call in calls if call.stamp < min(last_stamps.values())]


def failure_of(image: bytes, file: ProbeFile) -> Optional[Failure]:
    """The second checker's failure."""
    failure: Optional[Failure] = judge_file(image, file)[0]
    return failure


class Pair:
    """A made image with the records of its run, in an order in which a testbench may write them."""

    def __init__(self, number: int, name: str, image: bytes, file: ProbeFile) -> None:
        self.random = random.Random(number)
        self.name = f"pair {number}, {name}"
        self.image, self.harts, self.flags = image, file.harts, SV48 if file.is_wide else 0
        self.calls = self.reordered(calls_of(file))
        self.failure = failure_of(image, file)

    def reordered(self, calls: "list[Call]") -> "list[Call]":
        """The records cycle by cycle, or with some harts far ahead of others: each hart's order stays."""
        if self.random.random() < 0.3:
            return sorted(calls, key=lambda call: call.stamp)
        own = [[call for call in calls if call.hart == hart] for hart in range(self.harts)]
        weights, out = [self.random.random() for _ in own], []
        for _ in calls:
            left = [len(each) * weight for each, weight in zip(own, weights)]
            hart = self.random.choices(range(self.harts), left)[0]
            out.append(own[hart].pop(0))
        return out

    def with_end(self, calls: "list[Call]") -> ProbeFile:
        """The file of these records, as it is where it is simply given an End."""
        file = read(spell_file(self.harts, self.flags, calls))
        assert file is not None
        return file

    def cuts(self, count: int) -> "list[int]":
        """Numbers of records after which the run ends."""
        return [self.random.randrange(len(self.calls) + 1) for _ in range(count)]


def make_pairs(count: int) -> Iterator[Pair]:
    """The made pairs whose file is whole."""
    for number in range(1, count + 1):
        name, image, probes = make_pair(number)
        file = read(probes)
        if file is not None:
            yield Pair(number, name, image, file)


class Settled(unittest.TestCase):
    """What is in a file of a run that is cut short."""

    pairs: ClassVar["list[Pair]"]

    @classmethod
    def setUpClass(cls) -> None:
        cls.pairs = list(make_pairs(PAIRS))

    def setUp(self) -> None:
        # pylint: disable=consider-using-with
        self.folder = tempfile.TemporaryDirectory()
        self.addCleanup(self.folder.cleanup)
        self.path = os.path.join(self.folder.name, "probes")

    def content(self) -> bytes:
        """The bytes of the file."""
        with open(self.path, "rb") as file:
            return file.read()

    def assert_no_new_failure(self, pair: Pair, file: bytes) -> None:
        """The file is one, and it has no FAIL that the whole file has not."""
        found = read(file)
        assert found is not None, pair.name
        failure = failure_of(pair.image, found)
        self.assertIn(failure, (None, pair.failure), pair.name)

    def test_whole_runs(self) -> None:
        for program in (CALL_WRITER, CALL_SMALL_WRITER):
            for flags in (0, VERSION_2):
                lines = []
                for pair in self.pairs:
                    lines.append(f"open {pair.harts} {pair.flags | flags} -")
                    lines += [*(call.line() for call in pair.calls), "close"]
                answers = iter(run(lines, program))
                for pair in self.pairs:
                    statuses = {answer(next(answers)).status for _ in range(len(pair.calls) + 2)}
                    self.assertEqual(statuses, {OK}, pair.name)
                    file = bytes.fromhex(next(answers))
                    self.assertEqual(file, spell_file(pair.harts, pair.flags | flags, pair.calls), pair.name)

    def test_exit_without_close(self) -> None:
        cut_failures = kept_failures = 0
        for pair in self.pairs:
            for cut in pair.cuts(CUTS):
                calls = pair.calls[:cut]
                self.exit_after(pair, calls)
                cut_file, kept = pair.with_end(calls), pair.with_end(settled(pair.harts, calls))
                cut_failures += failure_of(pair.image, cut_file) not in (None, pair.failure)
                kept_failures += failure_of(pair.image, kept) is not None
        # In enough pairs files that are simply cut do fail where the whole ones pass, and settled ones fail
        # where those do: else this test would say nothing.
        self.assertGreaterEqual(cut_failures, PAIRS // 60)
        self.assertGreaterEqual(kept_failures, PAIRS // 60)

    def test_drain_cut_off(self) -> None:
        """Hart 1 has read what hart 0 drained, and the drain is not written yet."""
        image, probes = (os.path.join(DATA, name) for name in ("store-load.image", "store-load-pass.probes"))
        with open(image, "rb") as image_file, open(probes, "rb") as probe_file:
            file = read(probe_file.read())
            assert file is not None
            pair = Pair(1, "store and load", image_file.read(), file)
        calls = [call for hart in (1, 0) for call in pair.calls if call.hart == hart]
        cut = [call.kind for call in calls].index("drain")
        self.assertIsNone(pair.failure)
        failure = failure_of(pair.image, pair.with_end(calls[:cut]))
        assert failure is not None
        self.assertEqual((failure.key, failure.reason), ((12, 1, 3), "LoadSource"))
        for _ in range(6):
            self.exit_after(pair, calls[:cut])
        # Hart 0 has come to cycle 5: its records of the cycles 1 to 4 and hart 1's of 1 to 3 are settled.
        self.assertEqual(len(settled(2, calls[:cut])), 4 + 3)

    def exit_after(self, pair: Pair, calls: "list[Call]") -> None:
        """Ends a run behind some of its records, and looks at the file."""
        flags = pair.flags | pair.random.choice([0, VERSION_2])
        program = pair.random.choice([CALL_WRITER, CALL_SMALL_WRITER])
        end = pair.random.choice(["exit 3", "settle\nexit 3", "settle\nclose\nexit 3"])
        lines = [f"open {pair.harts} {flags} {self.path}", *(call.line() for call in calls), end]
        answers = run(lines, program, 3)
        self.assertEqual({answer(line).status for line in answers[:len(calls) + 1]}, {OK})
        kept = settled(pair.harts, calls)
        self.assertEqual(self.content(), spell_file(pair.harts, flags, kept), pair.name)
        self.assertEqual(self.content(), self.closed(spell_file(pair.harts, flags, calls)), pair.name)
        self.assert_no_new_failure(pair, self.content())

    def closed(self, file: bytes) -> bytes:
        """What the package's `close` makes of the same records without their End."""
        return close(file[:-END_BYTES], os.path.join(self.folder.name, "closed"))

    def test_settle_and_abort(self) -> None:
        calls = [Call("beat", hart, stamp) for stamp in range(10) for hart in (1, 0)][:-1]
        lines = [f"open 2 0 {self.path}", *(call.line() for call in calls)]
        ended = run([*lines, "settle", calls[-1].line(), "sync", "abort"], status=-signal.SIGABRT)
        answers = [answer(line) for line in ended]
        self.assertEqual(answers[-1].status, CLOSED)
        self.assertEqual(self.content(), spell_file(2, 0, settled(2, calls)))
        self.assertEqual(self.content(), self.closed(spell_file(2, 0, calls)))
        self.assertEqual(len(settled(2, calls)), 16)

    def test_killed(self) -> None:
        for pair in self.pairs[::4]:
            cut = pair.cuts(1)[0]
            program = pair.random.choice([CALL_WRITER, CALL_SMALL_WRITER])
            self.kill_after(pair, cut, program)
            content = self.content()
            found = whole_records(pair.harts, content)
            # All that is in the file is settled, and closing it by the rule makes no new failure.
            below = settled(pair.harts, pair.calls[:cut])
            self.assertEqual(found, [call for call in pair.calls[:len(found)] if call in below], pair.name)
            closed = close(content, self.path)
            self.assertEqual(closed, spell_file(pair.harts, pair.flags, settled(pair.harts, found)), pair.name)
            self.assert_no_new_failure(pair, closed)

    def test_killed_while_writing(self) -> None:
        """Killed at any time, the file has the first records of the run, the last one perhaps cut."""
        beats = 1_000_000
        whole = spell_file(2, 0, [])[:16] + b"".join(
            struct.pack("<BBQBBQ", 10, 0, stamp, 10, 1, stamp) for stamp in range(beats // 2))
        draws, longest = random.Random(3), 0
        for _ in range(10):
            with subprocess.Popen([CALL_WRITER], stdin=subprocess.PIPE, text=True,
                                  stdout=subprocess.DEVNULL) as process:
                assert process.stdin is not None
                process.stdin.write(f"open 2 0 {self.path}\nbeats 2 {beats}\n")
                process.stdin.flush()
                time.sleep(draws.random() / 5)
                process.kill()
            content = self.content() if os.path.exists(self.path) else b""
            self.assertTrue(whole.startswith(content))
            longest = max(longest, len(content))
        self.assertGreater(longest, 16)

    def kill_after(self, pair: Pair, cut: int, program: str) -> None:
        """Runs the writer up to some record, and kills it there."""
        lines = [f"open {pair.harts} {pair.flags} {self.path}"]
        lines += [*(call.line() for call in pair.calls[:cut]), "sync"]
        with subprocess.Popen([program], stdin=subprocess.PIPE, stdout=subprocess.PIPE,
                              text=True) as process:
            assert process.stdin is not None and process.stdout is not None
            process.stdin.write("\n".join(lines) + "\n")
            process.stdin.flush()
            for _ in range(cut + 1):
                self.assertEqual(answer(process.stdout.readline()).status, OK)
            process.kill()
            process.communicate()


def whole_records(harts: int, content: bytes) -> "list[Call]":
    """The whole records of a file of version 1 that may be cut somewhere."""
    sizes = {TAGS[kind]: struct.calcsize("<BBQ" + layout) for kind, layout in LAYOUTS.items()}
    place, count = 16, 0
    while place < len(content) and place + sizes[content[place]] <= len(content):
        place += sizes[content[place]]
        count += 1
    file = read(content[:place] + b"\xff" + count.to_bytes(8, "little"))
    assert file is not None and file.harts == harts
    return calls_of(file)


if __name__ == "__main__":
    unittest.main()
