"""Running the program: the one that DIFFTEST_PROGRAM names, or that of the repository, or on the path."""

from __future__ import annotations

import os
import shutil
import subprocess
from typing import List, NamedTuple, Optional

from .reader import Path
from .report import NotAReport, Report, parse_report
from .writer import ProbeError

TOP = os.path.normpath(os.path.join(os.path.dirname(os.path.abspath(__file__)), "..", "..", ".."))


class Answer(NamedTuple):
    """The status and the standard output of a run of the program."""

    status: int
    output: bytes


def find_program(program: Optional[Path] = None) -> str:
    """The path of the program, or ProbeError where there is none."""
    named = program or os.environ.get("DIFFTEST_PROGRAM")
    if named:
        return os.fspath(named)
    script = os.path.join(TOP, "difftest")
    if os.path.isfile(script) and os.access(script, os.X_OK):
        return script
    found = shutil.which("difftest")
    if found is None:
        raise ProbeError("there is no program: set DIFFTEST_PROGRAM to the path of difftest")
    return found


def run_program(words: List[str], program: Optional[Path] = None) -> Answer:
    """Runs the program with these words."""
    path = find_program(program)
    try:
        done = subprocess.run([path, *words], stdout=subprocess.PIPE, check=False)
    except OSError as fault:
        raise ProbeError(f"{path} does not run: {fault}") from None
    return Answer(done.returncode, done.stdout)


def check(image: Path, probes: Path, sources: bool = True, program: Optional[Path] = None) -> Report:
    """The report of `pass` over these files."""
    words = ["pass"] + ["--sources"] * sources + ["--", os.fspath(image), os.fspath(probes)]
    answer = run_program(words, program)
    try:
        return parse_report(answer.output.decode("ascii"))
    except (NotAReport, UnicodeDecodeError) as fault:
        raise ProbeError(f"status {answer.status}, and no report: {fault}") from None
