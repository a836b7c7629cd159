"""Judging a run while it goes on.

The front of the file that a run has written so far is judged at its settled end: a FAIL there is one of
the whole run. The run writes into a pipe, from which no more is taken than may come before the next
judgement, so that the run waits in its own writing, however fast it is. So a settled failure is named
before the run has handed over twice as many records as when the failure settled, or before it has handed
over AHEAD_BYTES more, where these are more.
"""

from __future__ import annotations

import contextlib
import mmap
import os
import select
import subprocess
import sys
import tempfile
from typing import BinaryIO, List, NamedTuple, Optional, Tuple

from .program import find_program
from .reader import BeyondLimit, Checkpoint, Malformed, Path, Reader
from .report import NotAReport, Report, parse_report
from .settled import Front, copy_kept
from .spelling import spell_end
from .writer import ProbeError

# A front is judged once it has half as many records again as the one before, so that all judgements together
# cost at most some three times the last.
GROWTH_NUMERATOR, GROWTH_DENOMINATOR = 3, 2
# So many records apart it is noted how far a file has settled.
CHECKPOINT_RECORDS = 4096
COPY_BYTES = 1 << 20
# At the beginning a front is judged as soon as it has so many records.
FIRST_RECORDS = 64
# The pipe holds so many bytes, and so many are taken out of it at once: a page, the least that Linux gives.
PIPE_BYTES = mmap.PAGESIZE
# What a run can hand over beyond what was asked for: a piece that is taken, and a pipe that is full again.
AHEAD_BYTES = 2 * PIPE_BYTES
# The smallest record has 3 bytes, and one more may have come in part.
MOST_AHEAD_RECORDS = AHEAD_BYTES // 3 + 2
# How a pipe is made smaller; Python has a name for it since 3.10.
SET_PIPE_SIZE = 1031


class Pipe:
    """The pipe at the path of a probe file, and the file that its bytes go into.

    At the end the file takes the pipe's place.
    """

    def __init__(self, path: str) -> None:
        if sys.platform != "linux":
            raise ProbeError("watch needs Linux, or --no-pause")
        import fcntl

        self._path = path
        self.copy_path = f"{path}.{os.getpid()}.part"
        os.mkfifo(path)
        # Opened to write as well, so that it is not at its end where the run closes it.
        self._pipe = os.open(path, os.O_RDWR | os.O_NONBLOCK)
        fcntl.fcntl(self._pipe, SET_PIPE_SIZE, PIPE_BYTES)
        self._copy = open(self.copy_path, "wb")
        # How many bytes were taken.
        self.taken = 0

    def take(self, most: int = PIPE_BYTES) -> bool:
        """Moves at most so many bytes into the file; says whether there were some."""
        try:
            piece = os.read(self._pipe, most)
        except BlockingIOError:
            return False
        self._copy.write(piece)
        self._copy.flush()
        self.taken += len(piece)
        return True

    def wait(self, seconds: float) -> None:
        """Waits so long, or until there are bytes."""
        select.select([self._pipe], [], [], seconds)

    @property
    def is_in_place(self) -> bool:
        """Whether the path still names the pipe, and not a file that the run has put there."""
        try:
            return os.path.samestat(os.stat(self._path), os.fstat(self._pipe))
        except FileNotFoundError:
            return False

    def close(self) -> None:
        """Takes what is left, and puts the file in the place of the pipe, if that is still there."""
        if self._copy.closed:
            return
        while self.take():
            pass
        self._copy.close()
        if self.is_in_place:
            os.replace(self.copy_path, self._path)
        else:
            os.remove(self.copy_path)
        os.close(self._pipe)


class Follower:
    """Reads a file as it grows."""

    def __init__(self, path: Path) -> None:
        self.path = path
        self.beyond: Optional[BeyondLimit] = None
        self._stream: Optional[BinaryIO] = None
        self._reader: Optional[Reader] = None
        self._greatest = 0
        # Points of the file, each with the greatest stamp before it.
        self._points: List[Tuple[int, Checkpoint]] = []

    @property
    def count(self) -> int:
        """How many records have come."""
        return self._reader.count if self._reader else 0

    @property
    def offset(self) -> int:
        """Where the last whole record ends."""
        return self._reader.offset if self._reader else 0

    @property
    def ended(self) -> bool:
        """Whether the End has come."""
        return self._reader is not None and self._reader.ended

    @property
    def front(self) -> Optional[Front]:
        """The front that has come, if its header has."""
        reader = self._reader
        if reader is None:
            return None
        return Front(reader.header, reader.count, min(reader.last_stamps), reader.ended, self.beyond)

    def read_on(self, most: int) -> bool:
        """Reads at most so many records; says whether there may be more at once.

        A fault that is no cut raises Malformed.
        """
        if self._reader is None and not self._open():
            return False
        assert self._reader is not None
        stop = self._reader.count + most
        try:
            for record in self._reader:
                if record.stamp > self._greatest:
                    self._greatest = record.stamp
                if self._reader.count % CHECKPOINT_RECORDS == 0:
                    self._points.append((self._greatest, self._reader.checkpoint()))
                if self._reader.count >= stop:
                    return True
        except BeyondLimit as limit:
            self.beyond = limit
        except Malformed as fault:
            if not fault.is_cut:
                raise
        return False

    def write_settled(self, out: Path) -> int:
        """Writes the settled records of the front, with an End; gives their number.

        What lies before a point whose stamps are all settled is copied as it is.
        """
        front = self.front
        assert front is not None
        least = front.least
        settled = [point for greatest, point in self._points if greatest < least]
        with open(self.path, "rb") as read, open(self.path, "rb") as source, open(out, "wb") as sink:
            reader = Reader(read, limited=False)
            if settled:
                reader.go_on_from(settled[-1])
            kept = reader.count
            _copy(source, sink, reader.offset)
            kept += copy_kept(reader, source, front.records, lambda record: record.stamp < least, sink)
            sink.write(spell_end(kept))
        return kept

    def _open(self) -> bool:
        if self._stream is None:
            try:
                self._stream = open(self.path, "rb")
            except FileNotFoundError:
                return False
        self._stream.seek(0)
        try:
            self._reader = Reader(self._stream)
        except Malformed as fault:
            if not fault.is_cut:
                raise
            return False
        return True

    def close(self) -> None:
        """Closes the file."""
        if self._stream is not None:
            self._stream.close()


def _copy(source: BinaryIO, sink: BinaryIO, length: int) -> None:
    """Copies so many bytes."""
    while length:
        piece = source.read(min(length, COPY_BYTES))
        if not piece:
            raise ProbeError("the probe file became shorter")
        sink.write(piece)
        length -= len(piece)


class Verdict(NamedTuple):
    """What the program answered over a front of so many records."""

    records: int
    settled: int
    report: Report
    text: str


class Judging:
    """One run of the program over a settled front, in a process of its own."""

    def __init__(self, image: Path, follower: Follower, program: Optional[Path]) -> None:
        self.records, self.bytes = follower.count, follower.offset
        self._folder = tempfile.TemporaryDirectory(prefix="difftest-watch-")
        prefix = os.path.join(self._folder.name, "settled.probes")
        self.settled = follower.write_settled(prefix)
        words = [find_program(program), "pass", "--", os.fspath(image), prefix]
        self._out = tempfile.TemporaryFile()
        self._process = subprocess.Popen(words, stdout=self._out)

    @property
    def is_over(self) -> bool:
        """Whether the program has answered."""
        return self._process.poll() is not None

    def wait(self, seconds: float) -> None:
        """Waits so long, or until the program has answered."""
        with contextlib.suppress(subprocess.TimeoutExpired):
            self._process.wait(seconds)

    def verdict(self) -> Verdict:
        """The answer, waiting for it."""
        self._process.wait()
        self._out.seek(0)
        text = self._out.read().decode("latin-1")
        self.stop()
        try:
            return Verdict(self.records, self.settled, parse_report(text), text)
        except NotAReport as fault:
            raise ProbeError(f"the program gave no report: {fault}") from None

    def stop(self) -> None:
        """Ends the program, where it still runs, and takes away the front."""
        if self._process.poll() is None:
            self._process.kill()
            self._process.wait()
        self._out.close()
        self._folder.cleanup()


class Pace:
    """When a front is judged, and how much a run may hand over until then."""

    def __init__(self) -> None:
        # Of the last front that was judged, how many records and bytes it had.
        self.judged = 0
        self.judged_bytes = 0

    def room(self, count: int, taken: int) -> int:
        """How many bytes may be taken, where so many records and bytes have come.

        With what the pipe may hold then, the run has handed over less than twice what is judged, or no more
        than AHEAD_BYTES beyond it.
        """
        if count + MOST_AHEAD_RECORDS <= 2 * self.judged:
            return PIPE_BYTES
        return max(0, self.judged_bytes + PIPE_BYTES - taken)

    def is_due(self, count: int, may_go_on: bool) -> bool:
        """Whether the front is to be judged, where nothing is judged just now."""
        if count <= self.judged or may_go_on and count < FIRST_RECORDS:
            return False
        return not may_go_on or GROWTH_DENOMINATOR * count >= GROWTH_NUMERATOR * self.judged
