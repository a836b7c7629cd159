"""Records a program that runs on QEMU: the image and the probe file of a run.

The harts are stepped one at a time by QEMU's stub for debuggers, in an order that the seed decides, and each
step is a cycle. The run ends at the first store to 100000 (the end of examples/programs), at --stop, after
--steps, by SIGINT or SIGTERM, or where every hart waits in a WFI, since no interrupt is taken. Where QEMU
does something that the profile does not allow, the recording stops and says where; the records before that
place are good.

Status: 0 where the run came to an end, 1 where QEMU departed from the profile or ended, 2 where nothing was
recorded.
"""

from __future__ import annotations

import argparse
import os
import signal
import sys
from dataclasses import dataclass
from random import Random
from types import FrameType
from typing import Callable, List, Optional

from ..elf import Elf, image_of, read_elf
from ..outputs import replacing
from ..records import MOST_HARTS, RAM_START, Record, Store
from ..writer import LimitReached, ProbeError, Writer
from .departure import Departure
from .machine import Qemu, StubMachine
from .remote import RemoteError
from .stepping import Hart, Recorder

END = 0x0010_0000
DEPARTED, REFUSED = 1, 2
# Of so many turns of a hart with stores that wait, one drains the oldest line.
TURNS_TO_DRAIN = 4
DERIVED = """derived, not observed: cycles (stamp and at), drains, bits (memory at pc), paddr (a walk of the
    page table), the value of a load into x0, wrote of an SC into x0
never fail, where the harts alone write RAM:
    compared with the profile before they are written: 3 Raises, 5 Cause, 6 Tval, 13 Adopt, 14 Counter,
        19 ScSuccess
    made by the recorder: 2 Fetch, 4 Kind, 9 Address, 11 Order, 15 Undrained, 20 DrainCount, 21 DrainData,
        22 Barrier
    not in the file: 7 Interrupt, 18 Refill, and without --regs 23 State"""


@dataclass(frozen=True)
class Run:
    """What to record."""

    harts: int
    seed: int
    steps: Optional[int]
    stop: Optional[int]
    is_late: bool
    snapshots: int


@dataclass
class Outcome:
    """What came of it."""

    why: str
    steps: int = 0
    departed: bool = False


class Interruption:
    """Whether a signal has asked for the end. The step under way is done first, so that the file is whole."""

    def __init__(self) -> None:
        self.is_asked = False
        for number in (signal.SIGINT, signal.SIGTERM):
            signal.signal(number, self._ask)

    def _ask(self, _number: int, _frame: Optional[FrameType]) -> None:
        self.is_asked = True


def record_run(machine: StubMachine, run: Run, writer: Writer, interruption: Interruption) -> Outcome:
    """Records a run, and says why it ended."""
    recorder = Recorder(machine, run.harts, writer.write, is_late=run.is_late, snapshots=run.snapshots)
    outcome = Outcome("")
    try:
        recorder.begin()
        _go_on(recorder, run, outcome, interruption)
        recorder.stamp += 2
        for hart in recorder.harts:
            recorder.drain_all(hart, recorder.stamp)
    except (Departure, RemoteError) as fault:
        outcome.why, outcome.departed = str(fault), True
    except LimitReached as limit:
        outcome.why = str(limit)
    _tell(recorder)
    return outcome


def _tell(recorder: Recorder) -> None:
    """Says what the recorder had to do."""
    if recorder.unseen:
        print(f"note: {recorder.unseen} loads of devices into x0 have the value 0: nothing shows another")
    if recorder.made_to_fail:
        what = "had no reservation, and were made to fail: QEMU alone asks for the value of the LR only"
        print(f"note: {recorder.made_to_fail} SCs {what}")


def _go_on(recorder: Recorder, run: Run, outcome: Outcome, interruption: Interruption) -> None:
    """Steps harts until the run ends."""
    random = Random(run.seed)
    while run.steps is None or outcome.steps < run.steps:
        awake = [hart for hart in recorder.harts if not hart.waits]
        if not awake:
            outcome.why = "every hart waits in a WFI"
            return
        if interruption.is_asked:
            outcome.why = "interrupted"
            return
        hart = random.choice(awake)
        if hart.pc == run.stop:
            outcome.why = f"hart {hart.number} has come to {hart.pc:x}"
            return
        if run.is_late and hart.buffer.oldest() and random.randrange(TURNS_TO_DRAIN) == 0:
            recorder.drain_oldest(hart)
        record = recorder.step(hart)
        outcome.steps += record is not None
        if _is_end(record):
            outcome.why = _end_text(hart, record)
            return
    outcome.why = f"{outcome.steps} steps are done"


def _is_end(record: Optional[Record]) -> bool:
    return isinstance(record, Store) and record.paddr == END


def _end_text(hart: Hart, record: Optional[Record]) -> str:
    value = record.value if isinstance(record, Store) else 0
    sort = "passed" if value == 1 else f"failed with code {value >> 1}"
    return f"hart {hart.number} stored {value:x} to {END:x}: the program {sort}"


def place_of(elf: Elf, text: str) -> int:
    """The address that a symbol or a hexadecimal number says."""
    for address, name in elf.symbols:
        if name == text:
            return address
    try:
        return int(text, 16)
    except ValueError:
        raise ProbeError(f"{text} is no symbol of the program, and no address") from None


def _number(least: int, most: Optional[int] = None) -> Callable[[str], int]:
    """A number in words, with its bounds."""

    def number(text: str) -> int:
        value = int(text)
        if value < least or most is not None and value > most:
            raise argparse.ArgumentTypeError(f"{text} is not {least} to {most or 'more'}")
        return value

    return number


def parser() -> argparse.ArgumentParser:
    """The words of the command."""
    made = argparse.ArgumentParser(
        prog="difftest-record", description=__doc__, formatter_class=argparse.RawDescriptionHelpFormatter
    )
    made.add_argument("--harts", type=_number(1, MOST_HARTS), default=1, help="1 to 8 (1)")
    made.add_argument("--seed", type=_number(0), default=0, help="decides the order of steps (0)")
    made.add_argument("--steps", type=_number(1), help="the most steps of all harts together")
    made.add_argument("--stop", metavar="SYMBOL|ADDR", help="where a hart ends the run before it goes on")
    made.add_argument("--drains", choices=("now", "late"), default="now", help="when stores drain (now)")
    made.add_argument("--regs", type=_number(1), metavar="N", help="Regs and Csrs at every N instructions")
    made.add_argument("elf", metavar="ELF")
    made.add_argument("image", metavar="OUT.image")
    made.add_argument("probes", metavar="OUT.probes")
    return made


def record(words: argparse.Namespace) -> int:
    """Records the run that the words say, and prints what came of it."""
    with open(words.elf, "rb") as source:
        elf = read_elf(source.read())
    image = image_of(elf)
    stop = place_of(elf, words.stop) if words.stop else None
    run = Run(words.harts, words.seed, words.steps, stop, words.drains == "late", words.regs or 0)
    interruption = Interruption()
    with Qemu(os.path.abspath(words.elf), run.harts) as machine:
        machine.arrive()
        wrong = machine.holds(image)
        if wrong is not None:
            raise ProbeError(f"QEMU has loaded other bytes than the image at {wrong:x}")
        with replacing(words.image) as out:
            out.write(image)
        with replacing(words.probes) as out:
            with Writer(out, run.harts) as writer:
                outcome = record_run(machine, run, writer, interruption)
    print(f"{words.probes}: {writer.count} records of {outcome.steps} steps; {outcome.why}")
    print(DERIVED)
    if elf.entry != RAM_START:
        print(f"note: the entry is {elf.entry:x}, but every hart begins at {RAM_START:x}")
    return DEPARTED if outcome.departed else 0


def main(words: Optional[List[str]] = None) -> int:
    """Runs the command and gives its status."""
    chosen = parser().parse_args(words)
    try:
        return record(chosen)
    except ProbeError as fault:
        print(f"difftest-record: {fault}", file=sys.stderr)
    except OSError as fault:
        print(f"difftest-record: {fault.filename or 'output'}: {fault.strerror}", file=sys.stderr)
    return REFUSED
