"""Runs a simulation and judges what it has written while it goes on.

    difftest-probes watch IMAGE PROBES -- ./Vtop +probes=PROBES

The simulation writes the probe file at PROBES (also in its environment as DIFFTEST_PROBES). A FAIL of a
settled front of the file is final: it is printed as `pass` prints it, and the simulation, and nothing
else, is ended.

While the simulation runs, PROBES is a pipe, whose bytes this command puts into a file that takes its place
at the end. From the pipe no more is taken than may come before the next judgement; meanwhile the simulation
waits in its own writing. So a failure is named before the simulation has written twice as many records as
when it settled, or 8192 bytes more where these are more: whatever its speed and that of this machine. (The
8192 are two pages of memory, which are longer on some machines.) What a writer keeps back in its own buffers
is not written yet; probes/README.md says what the C writer keeps back.

With --no-pause PROBES is a file, the simulation never waits, and there is no such bound: a front is judged
once it has half as many records again as the one before, as soon as that is judged and the next look comes
(--poll).

At the limit of records what fits is judged, and the simulation is ended. Else `pass` judges the whole file
at its end, or the settled front of it where no End came. Status: that of the last judgement: 0 PASS, 1 FAIL,
4 malformed.
"""

from __future__ import annotations

import argparse
import contextlib
import os
import subprocess
import sys
import time
from typing import List, Optional

from ..program import run_program
from ..reader import Malformed
from ..report import parse_report
from ..watching import PIPE_BYTES, Follower, Judging, Pace, Pipe, Verdict
from ..writer import ProbeError

PIECE_RECORDS = 20_000
# How long the simulation has, after it was asked to end, before it is killed.
GRACE_SECONDS = 5
# Before what it writes is taken: one that ends at once writes no more.
LISTENING_SECONDS = 0.2
MALFORMED_STATUS = 4


def add_words(parser: argparse.ArgumentParser) -> None:
    """The words of the command."""
    parser.add_argument("image", help="the image of the run")
    parser.add_argument("probes", help="the probe file that the simulation writes")
    parser.add_argument("simulation", nargs="+", metavar="-- SIM ..", help="the words of the simulation")
    parser.add_argument("--no-pause", action="store_true", help="never let the simulation wait")
    parser.add_argument(
        "--poll", type=float, default=0.02, metavar="S", help="seconds between two looks: 0.02"
    )
    parser.add_argument("--program", help="the path of difftest")


class Child:
    """The simulation."""

    def __init__(self, words: List[str], probes: str) -> None:
        try:
            self._process = subprocess.Popen(words, env={**os.environ, "DIFFTEST_PROBES": probes})
        except OSError as fault:
            raise ProbeError(f"{words[0]} does not run: {fault.strerror}") from None

    @property
    def is_over(self) -> bool:
        """Whether it has ended."""
        return self._process.poll() is not None

    @property
    def status(self) -> Optional[int]:
        """Its status, once it has ended."""
        return self._process.returncode

    def end(self, pipe: Optional[Pipe]) -> None:
        """Ends it, and nothing else. What it still writes is taken out of the pipe, so that it can end."""
        if self.is_over:
            return
        self._process.terminate()
        start = time.monotonic()
        self._wait(LISTENING_SECONDS)
        while not self.is_over and time.monotonic() < start + GRACE_SECONDS:
            if pipe is None or not pipe.take():
                self._wait(LISTENING_SECONDS)
        self._process.kill()
        self._process.wait()

    def _wait(self, seconds: float) -> None:
        with contextlib.suppress(subprocess.TimeoutExpired):
            self._process.wait(seconds)


class Watch:
    """A simulation, the file that it writes, and the judgements over its fronts."""

    def __init__(self, words: argparse.Namespace) -> None:
        self._words = words
        self._pipe = None if words.no_pause else Pipe(words.probes)
        self._follower = Follower(self._pipe.copy_path if self._pipe else words.probes)
        self._child: Optional[Child] = None
        self._judging: Optional[Judging] = None
        self._pace = Pace()

    def begin(self) -> None:
        """Starts the simulation."""
        self._child = Child(self._words.simulation, self._words.probes)

    def _finished(self) -> Optional[Verdict]:
        """The verdict of a judgement that has just ended."""
        if self._judging is None or not self._judging.is_over:
            return None
        self._pace.judged, self._pace.judged_bytes = self._judging.records, self._judging.bytes
        verdict = self._judging.verdict()
        self._judging = None
        return verdict

    def _read_on(self, room: int) -> bool:
        """Takes what has come, and reads it; says whether there was something."""
        has_more = self._pipe is not None and room > 0 and self._pipe.take(room)
        return self._follower.read_on(PIECE_RECORDS) or has_more

    def _wait(self, room: int) -> None:
        """Waits a little for bytes, or for the judgement where no bytes may be taken."""
        if self._pipe is None:
            time.sleep(self._words.poll)
        elif room or self._judging is None:
            self._pipe.wait(self._words.poll)
        else:
            self._judging.wait(self._words.poll)

    def _room(self) -> int:
        """How many bytes may be taken."""
        return self._pace.room(self._follower.count, self._pipe.taken) if self._pipe else PIPE_BYTES

    def follow(self) -> Optional[Verdict]:
        """Follows the run to a FAIL, or until no more can come of it."""
        assert self._child is not None
        while True:
            is_over, room = self._child.is_over, self._room()
            has_more = self._read_on(room)
            verdict = self._finished()
            if verdict and verdict.report.verdict != "PASS":
                return verdict
            if self._follower.beyond or self._follower.ended:
                return None
            if is_over and room and not has_more:
                return None
            room = self._room()
            if self._judging is None and self._pace.is_due(self._follower.count, room > 0):
                self._judging = Judging(self._words.image, self._follower, self._words.program)
            if not has_more or not room:
                self._wait(room)

    def last(self) -> Verdict:
        """The judgement of all that can be judged, when the run is over or beyond the limit."""
        assert self._child is not None
        if self._follower.beyond:
            self._child.end(self._pipe)
        while not self._child.is_over:
            if self._pipe is None or not self._pipe.take():
                self._wait(PIPE_BYTES)
        self._close_pipe()
        front = self._follower.front
        if front is None:
            raise ProbeError(f"{self._words.probes}: the simulation wrote no header")
        if front.has_end:
            answer = run_program(["pass", "--", self._words.image, self._words.probes], self._words.program)
            text = answer.output.decode("latin-1")
            return Verdict(front.records, front.records, parse_report(text), text)
        return Judging(self._words.image, self._follower, self._words.program).verdict()

    def _close_pipe(self) -> None:
        """Puts the file in its place. Where the simulation has put one there itself, that is read."""
        if self._pipe is None:
            return
        was_in_place = self._pipe.is_in_place
        self._pipe.close()
        self._pipe = None
        self._follower.path = self._words.probes
        if not was_in_place:
            self._follower.close()
            self._follower = Follower(self._words.probes)
        while self._follower.read_on(PIECE_RECORDS):
            pass

    def stop(self) -> None:
        """Ends what this watch has started."""
        if self._judging is not None:
            self._judging.stop()
        if self._child is not None:
            self._child.end(self._pipe)
        if self._pipe is not None:
            self._pipe.close()
        self._follower.close()

    def remarks(self, verdict: Verdict) -> List[str]:
        """What is to be said beside the report."""
        lines = []
        if self._follower.beyond:
            lines.append(
                f"watch: LIMIT {self._follower.beyond.what}={self._follower.beyond.number}: judged what fits"
            )
        if not self._follower.ended:
            lines.append(f"watch: judged the {verdict.settled} settled of {verdict.records} records")
        if self._child is not None and self._child.status:
            lines.append(f"watch: the simulation ended with status {self._child.status}")
        return lines


def run(words: argparse.Namespace) -> int:
    """Watches a run."""
    if os.path.exists(words.probes) and not os.path.isfile(words.probes):
        raise ProbeError(f"{words.probes} is no file: take it away, or name another path")
    if os.path.exists(words.probes):
        # An older run's file must not be taken for this one's.
        os.remove(words.probes)
    watch = Watch(words)
    try:
        watch.begin()
        verdict = watch.follow() or watch.last()
        sys.stdout.write(verdict.text)
        sys.stdout.flush()
    except Malformed as fault:
        print(f"MALFORMED offset={fault.offset}")
        print(f"watch: {fault}", file=sys.stderr)
        return MALFORMED_STATUS
    finally:
        watch.stop()
    for line in watch.remarks(verdict):
        print(line, file=sys.stderr)
    return {"PASS": 0, "FAIL": 1}.get(verdict.report.verdict, 2)
