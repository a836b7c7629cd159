#!/usr/bin/env python3
"""Runs random programs on the cores and judges them: check_random.py [--from SEED] [--count COUNT] [--jobs JOBS]

Each has to end and to pass. The image and the probes of one that does not are kept."""

import argparse
import sys
from concurrent.futures import ThreadPoolExecutor
from dataclasses import dataclass
from pathlib import Path

from generator.program import build, program
from runs import OUT, PASSED, count_of, judge, simulate

CYCLES = "+cycles=60000"
LETTERS = "LSPIDCZ"


@dataclass(frozen=True)
class Outcome:
    """What came of one program: its report, or what is wrong."""

    seed: int
    report: str = ""
    problem: str = ""


def try_seed(seed: int) -> Outcome:
    """Makes, runs and judges the program of a seed."""
    folder = OUT / "random"
    image, probes = folder / f"{seed}.image", folder / f"{seed}.probes"
    build(program(seed), image)
    run = simulate(image, probes, CYCLES)
    if run.status != PASSED:
        return Outcome(seed, problem=f"the run: {run.text.strip()}")
    report = judge(image, probes)
    if report.status != PASSED:
        return Outcome(seed, problem=report.first_line)
    keep_nothing(image, probes)
    return Outcome(seed, report=report.text)


def keep_nothing(*paths: Path) -> None:
    """Removes the files of a program that passed."""
    for path in paths:
        path.unlink()


def summary(outcomes: list[Outcome]) -> str:
    """How much was judged, and how often each rule was used."""
    reports = [outcome.report for outcome in outcomes if outcome.report]
    counts = {name: sum(count_of(report, name) for report in reports) for name in ["records", "writes", *LETTERS]}
    numbers = " ".join(f"{name}={count}" for name, count in counts.items())
    return f"random: {len(reports)} of {len(outcomes)} programs passed, {numbers}"


def main() -> int:
    """Tries the seeds, and says which one failed."""
    words = argparse.ArgumentParser(description=__doc__.splitlines()[0])
    words.add_argument("--from", type=int, default=1, dest="first")
    words.add_argument("--count", type=int, default=20)
    words.add_argument("--jobs", type=int, default=1)
    chosen = words.parse_args()
    (OUT / "random").mkdir(parents=True, exist_ok=True)
    seeds = range(chosen.first, chosen.first + chosen.count)
    with ThreadPoolExecutor(chosen.jobs) as workers:
        outcomes = []
        for outcome in workers.map(try_seed, seeds):
            outcomes.append(outcome)
            if outcome.problem:
                print(f"seed {outcome.seed}: {outcome.problem}", flush=True)
    print(summary(outcomes))
    return int(any(outcome.problem for outcome in outcomes))


if __name__ == "__main__":
    sys.exit(main())
