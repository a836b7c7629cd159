"""The words of `difftest-probes`, and the commands that they name."""

from __future__ import annotations

import argparse
import os
import sys
from typing import List, Optional

from ..writer import ProbeError
from . import close, coverage, cut, explain, from_rvfi, image, info, lint, merge, triage, vcd, view, watch

COMMANDS = (info, close, merge, cut, image, lint, explain, coverage, triage, vcd, view, watch, from_rvfi)
# The command could not do its work: a file is missing, malformed, or no file of its kind.
REFUSED = 2


def parser() -> argparse.ArgumentParser:
    """The parser of all commands."""
    made = argparse.ArgumentParser(
        prog="difftest-probes", description="Works on the probe files of difftest: docs/PROBE-FORMAT.md."
    )
    parts = made.add_subparsers(required=True, metavar="COMMAND")
    for command in COMMANDS:
        name = command.__name__.rsplit(".", 1)[1].replace("_", "-")
        summary = (command.__doc__ or "").strip().split("\n", 1)[0]
        part = parts.add_parser(name, help=summary, description=command.__doc__)
        part.formatter_class = argparse.RawDescriptionHelpFormatter
        command.add_words(part)
        part.set_defaults(run=command.run)
    return made


def main(words: Optional[List[str]] = None) -> int:
    """Runs a command and gives its status."""
    chosen = parser().parse_args(words)
    try:
        status = int(chosen.run(chosen))
        sys.stdout.flush()
        return status
    except ProbeError as fault:
        print(f"difftest-probes: {fault}", file=sys.stderr)
    except BrokenPipeError:
        # Whoever read the output has seen enough; what is still held must not be written at the end.
        os.dup2(os.open(os.devnull, os.O_WRONLY), sys.stdout.fileno())
    except OSError as fault:
        print(f"difftest-probes: {fault.filename or 'output'}: {fault.strerror}", file=sys.stderr)
    return REFUSED
