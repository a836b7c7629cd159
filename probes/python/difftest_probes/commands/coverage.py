"""Counts what runs have exercised, and says which reasons could not have come.

IMAGE and PROBES come in pairs. Counted are instructions, causes, modes, translations of fetches and
accesses, the letters of the report, where loaded bytes came from, and how often the check of each reason
was asked. A reason that was never asked could not come: a PASS says nothing of it. --json writes the
counts, --merge adds those of earlier runs. Status: 0.
"""

from __future__ import annotations

import argparse
import json
from typing import List

from ..covering import Coverage, cover
from ..outputs import write_text
from ..program import check
from ..reader import Reader
from ..reasons import REASONS
from ..report import LETTERS
from ..writer import ProbeError


def add_words(parser: argparse.ArgumentParser) -> None:
    """The words of the command."""
    parser.add_argument("files", nargs="*", metavar="IMAGE PROBES", help="pairs of an image and a probe file")
    parser.add_argument("--json", metavar="FILE", help="write the counts as JSON")
    parser.add_argument(
        "--merge", action="append", default=[], metavar="FILE", help="add the counts of a JSON"
    )
    parser.add_argument("--program", help="the path of difftest")


def _add_pair(coverage: Coverage, image: str, probes: str, program: str) -> None:
    report = check(image, probes, program=program)
    if report.refusal:
        raise ProbeError(f"{probes}: {report.refusal}")
    with open(probes, "rb") as stream:
        reader = Reader(stream)
        cover(coverage, reader, report, reader.header.wide)


def _add_json(coverage: Coverage, path: str) -> None:
    with open(path, encoding="utf-8") as source:
        try:
            data = json.load(source)
        except ValueError as fault:
            raise ProbeError(f"{path} is no JSON: {fault}") from None
    if not isinstance(data, dict):
        raise ProbeError(f"{path} has no counts")
    coverage.merge(data)


def _lines(coverage: Coverage) -> List[str]:
    lines = [f"files={coverage.files} records={coverage.records}"]
    for name, counts in coverage.groups.items():
        order = {"asked": REASONS, "letters": LETTERS}.get(name, sorted(counts))
        ordered = {part: counts[part] for part in order}
        lines.append(
            f"{name}: " + (" ".join(f"{key.replace(' ', '_')}={n}" for key, n in ordered.items()) or "none")
        )
    never = coverage.never()
    lines.append("could not come: " + (", ".join(never) if never else "none"))
    return lines


def run(words: argparse.Namespace) -> int:
    """Prints the counts."""
    if len(words.files) % 2 or not words.files and not words.merge:
        raise ProbeError("images and probe files come in pairs")
    coverage = Coverage()
    for image, probes in zip(words.files[::2], words.files[1::2]):
        _add_pair(coverage, image, probes, words.program)
    for path in words.merge:
        _add_json(coverage, path)
    print("\n".join(_lines(coverage)))
    if words.json:
        write_text(words.json, json.dumps(coverage.as_data(), indent=2) + "\n")
    return 0
