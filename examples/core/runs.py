"""Runs the example cores and judges their probes, for the checks of this folder."""

import os
import subprocess
from dataclasses import dataclass
from pathlib import Path

FOLDER = Path(__file__).resolve().parent
OUT = FOLDER / "out"
SIMULATION = OUT / "simulation_2"
DIFFTEST = os.environ.get("DIFFTEST", str(FOLDER.parent.parent / "difftest"))

PASSED = 0
SECONDS_FOR_A_RUN = 120
SECONDS_FOR_A_JUDGEMENT = 600


@dataclass(frozen=True)
class Answer:
    """The status of a program and what it printed."""

    status: int
    text: str

    @property
    def first_line(self) -> str:
        """The verdict, or why there is none."""
        return self.text.split("\n", 1)[0]


def answer_of(command: list[str], seconds: int) -> Answer:
    """Runs a command to its end; one that takes too long has status -1."""
    try:
        done = subprocess.run(command, stdout=subprocess.PIPE, stderr=subprocess.STDOUT, timeout=seconds, check=False)
    except subprocess.TimeoutExpired:
        return Answer(-1, f"{command[0]}: more than {seconds} seconds")
    return Answer(done.returncode, done.stdout.decode("utf-8", "replace"))


def simulate(image: Path, probes: Path, *more: str) -> Answer:
    """Runs the cores on an image. The status is 0 where the program says that it passed."""
    return answer_of([str(SIMULATION), f"+image={image}", f"+probes={probes}", *more], SECONDS_FOR_A_RUN)


def judge(image: Path, probes: Path) -> Answer:
    """What difftest says of a run, which has to be the same on one thread and with workers."""
    one_thread, workers = (
        answer_of([DIFFTEST, command, str(image), str(probes)], SECONDS_FOR_A_JUDGEMENT) for command in ("pass", "check")
    )
    if workers != one_thread:
        return Answer(-1, f"pass and check differ: {one_thread.first_line!r} and {workers.first_line!r}")
    return one_thread


def count_of(report: str, name: str) -> int:
    """A number of the report, by the word before its equals sign."""
    for word in report.split():
        if word.startswith(name + "="):
            return int(word[len(name) + 1:])
    raise ValueError(f"the report has no {name}")
