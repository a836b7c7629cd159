"""`watch`: what it names, and when, and whom it ends."""

from __future__ import annotations

import os
import signal
import subprocess
import sys
import time
import unittest
from bisect import bisect_right
from random import Random
from typing import Iterator, List, Tuple
from unittest.mock import patch

from difftest_probes import Beat, Commit, Record, parse_report, read
from difftest_probes import reader as reader_module
from difftest_probes.isa import assembler as asm
from difftest_probes.watching import AHEAD_BYTES, PIPE_BYTES, Follower, Pace

from .support import CommandCase, bytes_of, made_pair, second_answer, second_reading
from .test_commands import words_of
from .test_explaining import FAILING, IMAGE, PASSING

RAM = 0x80000000
LOOP = asm.jal(0, 0)
# Copies a file to the probe file piece by piece, with a pause behind each.
SIMULATION = """
import os, sys, time
source, size, pause, status = sys.argv[1:5]
with open(source, "rb") as source, open(os.environ["DIFFTEST_PROBES"], "wb") as out:
    while True:
        piece = source.read(int(size))
        if not piece:
            break
        out.write(piece)
        out.flush()
        time.sleep(float(pause))
sys.exit(int(status))
"""


def long_run(failing: int, count: int) -> List[Record]:
    """Commits of two harts in an endless loop, one a cycle; that of one cycle has a wrong pc."""
    rows: List[Record] = []
    for cycle in range(count):
        for hart in (0, 1):
            pc = RAM + 8 if cycle == failing and hart == 1 else RAM
            rows.append(Commit(hart, cycle, pc, LOOP, 0))
    return rows


class Watch(CommandCase):
    """Runs of a small program in the place of a simulation."""

    def setUp(self) -> None:
        super().setUp()
        self.image = self.put("image", words_of(LOOP))
        self.out = self.path("out.probes")

    def words(self, run: bytes, size: int, pause: float, status: int = 0) -> Tuple[str, ...]:
        """The words of a simulation of this run, that writes so many bytes at once."""
        source = self.put("source", run)
        script = self.put("simulation.py", SIMULATION.encode())
        return (sys.executable, script, source, str(size), str(pause), str(status))

    def watch(
        self, run: bytes, size: int, pause: float, *, image: str = "", more: Tuple[str, ...] = ()
    ) -> Tuple[int, str]:
        """The answer of `watch` over a run."""
        return self.run_command(
            "watch", *more, image or self.image, self.out, "--", *self.words(run, size, pause)
        )

    def folder(self) -> str:
        """The folder of the test's files."""
        return os.path.dirname(self.out)

    def written(self) -> int:
        """How many bytes the simulation wrote."""
        return os.path.getsize(self.out)

    def test_whole_runs(self) -> None:
        for probes, status in ((PASSING, 0), (FAILING, 1)):
            with open(probes, "rb") as source:
                run = source.read()
            found = self.watch(run, 50, 0.01, image=IMAGE)
            self.assertEqual(found[0], status)
            wanted = second_answer(IMAGE, probes)[1].split("note ")[0]
            self.assertEqual(found[1], wanted)
            self.assertEqual(self.said, "")

    def test_failure_is_named_before_the_run_has_doubled(self) -> None:
        """Whatever its length and speed: each of these runs is handed over in one write, as fast as can be."""
        for version, failing in ((1, 40), (2, 300), (1, 1000), (2, 2500), (1, 9000), (2, 30_000)):
            rows = long_run(failing, 3 * failing + 4000)
            run = bytes_of(rows, 2, version)
            status, text = self.watch(run, len(run), 0)
            self.assertEqual(status, 1)
            self.assertTrue(text.startswith(f"FAIL stamp={failing} hart=1 seq={failing} reason=1 Pc "), text)
            # The failure settles with the second hart's first record of the next cycle.
            settled = 2 * failing + 4
            doubled = len(bytes_of(rows[: 2 * settled], 2, version))
            more = len(bytes_of(rows[:settled], 2, version)) + AHEAD_BYTES
            # While it is being ended the run may write a little more.
            self.assertLess(self.written(), max(doubled, more) + AHEAD_BYTES)
            self.assertLess(self.written(), len(run))

    def test_slow_run_is_ended_as_soon(self) -> None:
        for version, failing, size, pause in ((1, 300, 300, 0.01), (2, 2500, 600, 0.01)):
            rows = long_run(failing, 40 * failing)
            settled = len(bytes_of(rows[: 2 * failing + 4], 2, version))
            self.assertEqual(self.watch(bytes_of(rows, 2, version), size, pause)[0], 1)
            self.assertLess(self.written(), 2 * settled + AHEAD_BYTES)

    def test_run_that_never_waits(self) -> None:
        run = bytes_of(long_run(300, 40_000), 2)
        status, text = self.watch(run, len(run), 0, more=("--no-pause",))
        self.assertEqual((status, text.split(" reason")[0]), (1, "FAIL stamp=300 hart=1 seq=300"))
        self.assertEqual(self.written(), len(run))
        with open(PASSING, "rb") as source:
            run = source.read()
        self.assertEqual(self.watch(run, 50, 0.01, image=IMAGE, more=("--no-pause",))[0], 0)
        self.assertEqual(self.get("out.probes"), run)

    def test_run_that_puts_a_file_there(self) -> None:
        """The file of a run that does not write into what is there is judged at its end."""
        for probes, status in ((PASSING, 0), (FAILING, 1)):
            with open(probes, "rb") as source:
                run = self.put("made", source.read())
            words = ("watch", IMAGE, self.out, "--", "mv", run, self.out)
            self.assertEqual(self.run_command(*words)[0], status)
            self.assertEqual(os.listdir(self.folder()).count("out.probes"), 1)
        self.assertEqual([name for name in os.listdir(self.folder()) if name.endswith(".part")], [])

    def test_what_a_run_writes_when_it_is_ended_is_in_the_file(self) -> None:
        """More than a pipe holds."""
        script = "import signal\n\ndef last(*_):\n    out.write(bytes(100_000))\n    sys.exit(0)\n"
        words = list(self.words(bytes_of(long_run(100, 20_000), 2), 300, 0.01))
        words[1] = self.put("last.py", (script + "signal.signal(15, last)" + SIMULATION).encode())
        self.assertEqual(self.run_command("watch", self.image, self.out, "--", *words)[0], 1)
        self.assertTrue(self.get("out.probes").endswith(bytes(100_000)))

    def test_made_pairs(self) -> None:
        """Whenever a failure is found, the FAIL line is that of the whole."""
        for number in range(1, 31):
            image, probes = made_pair(number)
            self.put("made.image", image)
            status, whole = second_answer(self.path("made.image"), self.put("made", probes))
            if status != 1 or len(probes) > 6000:
                continue
            answer = self.watch(probes, 300, 0.002, image=self.path("made.image"))
            self.assertEqual((answer[0], answer[1].split("\n")[0]), (1, whole.split("\n")[0]), number)

    def test_run_without_an_end(self) -> None:
        rows: List[Record] = [Commit(0, 1, RAM, LOOP, 0), Beat(1, 1), Commit(0, 2, RAM, LOOP, 0), Beat(1, 3)]
        run = bytes_of(rows, 2)[:-9]
        status, text = self.watch(run, 40, 0.01)
        self.assertEqual((status, parse_report(text).records), (0, 2))
        self.assertIn("judged the 2 settled of 4 records", self.said)

    def test_limit(self) -> None:
        rows = long_run(10_000, 400)
        with patch.object(reader_module, "MOST_RECORDS", 300):
            status, text = self.watch(bytes_of(rows, 2), 100, 0.01)
        self.assertEqual((status, parse_report(text).records), (0, 298))
        self.assertIn("LIMIT records=301: judged what fits", self.said)
        self.assertLess(self.written(), len(bytes_of(rows, 2)))

    def test_malformed(self) -> None:
        run = bytes_of(long_run(9, 4), 2)[:-9] + b"\xee" + bytes(500)
        status, text = self.watch(run, 50, 0.01)
        self.assertEqual((status, text), (4, f"MALFORMED offset={16 + 8 * 30}\n"))
        self.assertIn("the tag 238 is of no kind", self.said)

    def test_status_of_the_simulation_is_told(self) -> None:
        words = self.words(bytes_of(long_run(9, 3), 2), 5000, 0, 7)
        status, _ = self.run_command("watch", self.image, self.out, "--", *words)
        self.assertEqual(status, 0)
        self.assertIn("the simulation ended with status 7", self.said)

    def test_older_file_is_not_judged(self) -> None:
        self.put("out.probes", bytes_of(long_run(2, 50), 2))
        self.assertEqual(self.watch(bytes_of(long_run(99, 50), 2), 5000, 0)[0], 0)

    def test_no_simulation(self) -> None:
        self.assertEqual(self.run_command("watch", self.image, self.out, "--", self.path("none"))[0], 2)
        self.assertEqual(self.run_command("watch", self.image, self.out, "--", "true")[0], 2)
        self.assertIn("wrote no header", self.said)

    def test_pipe_is_refused(self) -> None:
        os.mkfifo(self.out)
        self.assertEqual(self.run_command("watch", self.image, self.out, "--", "true")[0], 2)
        self.assertIn("is no file", self.said)

    def test_ends_its_own_child_alone(self) -> None:
        """Another process with the same words goes on, and the child is no more."""
        rows = long_run(100, 20_000)
        words = self.words(bytes_of(rows, 2), 300, 0.01)
        environment = {**os.environ, "DIFFTEST_PROBES": self.path("other.probes")}
        with subprocess.Popen(words, env=environment) as other:
            try:
                status, _ = self.run_command("watch", self.image, self.out, "--", *words)
                self.assertEqual(status, 1)
                self.assertIsNone(other.poll())
                size = os.path.getsize(self.out)
                time.sleep(0.2)
                self.assertEqual(os.path.getsize(self.out), size)
            finally:
                other.send_signal(signal.SIGKILL)

    def test_child_that_does_not_listen(self) -> None:
        """A child that ignores being asked to end is killed."""
        script = SIMULATION.replace(
            "import os", "import signal; signal.signal(15, signal.SIG_IGN)\nimport os"
        )
        words = list(self.words(bytes_of(long_run(100, 20_000), 2), 300, 0.01))
        words[1] = self.put("deaf.py", script.encode())
        with patch("difftest_probes.commands.watch.GRACE_SECONDS", 0.2):
            status, _ = self.run_command("watch", self.image, self.out, "--", *words)
        self.assertEqual(status, 1)
        size = os.path.getsize(self.out)
        time.sleep(0.2)
        self.assertEqual(os.path.getsize(self.out), size)


class Following(CommandCase):
    """The settled front of a file that grows."""

    def test_settled_fronts_are_those_of_close(self) -> None:
        for number, version in ((4, 1), (44, 2), (1, 1)):
            probes = made_pair(number)[1]
            if second_reading(probes)[0] is None:
                continue
            with patch("difftest_probes.watching.CHECKPOINT_RECORDS", 16):
                self.compare(probes, version)

    def compare(self, probes: bytes, version: int) -> None:
        """Compares the fronts of a file with what `close` makes of them."""
        file = read(self.put("whole", probes))
        data = bytes_of(file.records, file.header.harts, version, file.header.wide)
        self.put("growing", b"")
        follower = Follower(self.path("growing"))
        step = max(1, len(data) // 40)
        for end in range(16, len(data), step):
            with open(self.path("growing"), "ab") as out:
                out.write(data[os.path.getsize(self.path("growing")) : end])
            while follower.read_on(50):
                pass
            kept = follower.write_settled(self.path("settled"))
            self.run_command("close", self.path("growing"), "-o", self.path("closed"))
            closed = self.records_of("closed")
            self.assertEqual((kept, self.records_of("settled")), (len(closed), closed))
        follower.close()

class Pacing(unittest.TestCase):
    """How far a run can be ahead of what is judged, if it fills the pipe whenever there is room."""

    def test_bound(self) -> None:
        """The first failure that is not judged settles with the next record, or later: then it is ahead less."""
        doubled = steps = 0
        for seed in range(90):
            random = Random(seed)
            sizes = ((3,), (3, 10), (30, 46, 92), (266, 344))[seed % 4]
            ends = [16]
            while len(ends) < 20_000:
                ends.append(ends[-1] + random.choice(sizes))
            for judged, handed_over in self.steps(ends, random):
                steps += 1
                if bisect_right(ends, handed_over) - 1 >= 2 * (judged + 1):
                    doubled += 1
                    self.assertLessEqual(handed_over - ends[judged + 1], AHEAD_BYTES, seed)
        # Both happen: short runs are more than doubled, longer ones are not.
        self.assertTrue(0 < doubled < steps / 2, (doubled, steps))

    def steps(self, ends: List[int], random: Random) -> Iterator[Tuple[int, int]]:
        """How many records are judged, and how many bytes handed over; `ends` is where each record ends."""
        pace, taken, judging = Pace(), 16, 0
        while pace.judged < 6000:
            room = pace.room(bisect_right(ends, taken) - 1, taken)
            taken += random.choice((room, random.randint(0, room)))
            count = bisect_right(ends, taken) - 1
            yield pace.judged, taken + PIPE_BYTES
            if judging and random.random() < 0.3:
                pace.judged, pace.judged_bytes, judging = judging, ends[judging], 0
            elif not judging and pace.is_due(count, pace.room(count, taken) > 0):
                judging = count


if __name__ == "__main__":
    unittest.main()
