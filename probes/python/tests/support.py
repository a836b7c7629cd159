"""What several tests need: the second checker, the program, made pairs, random records."""

from __future__ import annotations

import contextlib
import io
import os
import sys
import tempfile
import unittest
from functools import lru_cache
from random import Random
from typing import Iterable, List, Optional, Tuple
from unittest.mock import patch

from difftest_probes import Header, Record, read, write_file
from difftest_probes.commands.main import main
from difftest_probes.program import TOP
from difftest_probes.records import KINDS, LINE_BYTES, RAM_END, RAM_START, Atomic, Drain, Load, Refill, Trap
from difftest_probes.records import Csrs, Regs

CHECKS = os.path.join(TOP, "checks")
if CHECKS not in sys.path:
    sys.path.append(CHECKS)

if sys.version_info < (3, 10):
    raise unittest.SkipTest("the tests need Python 3.10, as the second checker does")

from probe_generator.campaign import make_pair  # noqa: E402
from second_opinion.checker import run as second_checker  # noqa: E402
from second_opinion.probe_file import Refused, read_probe_file  # noqa: E402

# Where this is set, whole sets are tried in the place of samples.
IS_WHOLE = os.environ.get("DIFFTEST_WHOLE") == "1"
WORD = (1 << 64) - 1


def bytes_of(records: Iterable[Record], harts: int = 8, version: int = 1, wide: bool = False) -> bytes:
    """The bytes of a whole file."""
    stream = io.BytesIO()
    write_file(stream, Header(harts, version, wide), records)
    return stream.getvalue()


class FolderCase(unittest.TestCase):
    """A test with a folder of its own."""

    def setUp(self) -> None:
        self._folder = tempfile.TemporaryDirectory()
        self.addCleanup(self._folder.cleanup)

    def path(self, name: str) -> str:
        """The path of a file in the folder."""
        return os.path.join(self._folder.name, name)

    def put(self, name: str, content: bytes) -> str:
        """Writes a file, and gives its path."""
        with open(self.path(name), "wb") as out:
            out.write(content)
        return self.path(name)

    def get(self, name: str) -> bytes:
        """The bytes of a file."""
        with open(self.path(name), "rb") as source:
            return source.read()


def second_reading(data: bytes) -> Tuple[Optional[List[object]], str]:
    """The records as the second checker reads them, or None and its refusal."""
    try:
        return list(read_probe_file(data).records), ""
    except Refused as refusal:
        return None, refusal.text


def second_answer(image: str, probes: str) -> Tuple[int, str]:
    """The second checker's status and report, with sources."""
    status, text = second_checker(["pass", "--sources", image, probes])
    return int(status), str(text)


def _number(random: Random, size: int) -> int:
    bits = 8 * size
    return random.choice((0, 1, (1 << bits) - 1, random.getrandbits(bits), random.getrandbits(7))) & (
        (1 << bits) - 1
    )


def _bits(random: Random) -> int:
    return random.getrandbits(32) | 3 if random.random() < 0.7 else random.getrandbits(16) & ~3


def _line(random: Random) -> int:
    return random.randrange(RAM_START, RAM_END, LINE_BYTES)


def _drain(random: Random, hart: int, stamp: int) -> Drain:
    mask = random.choice((WORD, 1 << random.randrange(64), random.getrandbits(64) | 1, 0xFF << 8))
    content = bytes(random.getrandbits(8) if mask >> n & 1 else 0 for n in range(LINE_BYTES))
    return Drain(hart, stamp, _line(random), mask, random.randrange(1, 1 << 16), content)


def _atomic(random: Random, hart: int, stamp: int) -> Atomic:
    width, wrote = random.choice((4, 8)), random.randrange(2)
    place = random.randrange(RAM_START, RAM_END, width)
    new = random.getrandbits(8 * width) if wrote else 0
    return Atomic(
        hart, stamp, _number(random, 8), _bits(random), _number(random, 8), place, width, wrote, new
    )


def random_record(random: Random, hart: int, stamp: int) -> Record:
    """A lawful record of any kind."""
    kind = random.choice(KINDS)
    if kind is Drain:
        return _drain(random, hart, stamp)
    if kind is Refill:
        return Refill(hart, stamp, _line(random), random.getrandbits(512).to_bytes(64, "little"))
    if kind is Atomic:
        return _atomic(random, hart, stamp)
    values = [_number(random, size) for _, size in kind.numbers]
    if kind is Regs:
        return Regs(hart, stamp, values[0], tuple(values[1:]))
    if kind is Csrs:
        return Csrs(hart, stamp, random.choice((0, 1, 3)), tuple(values[1:]))
    if len(values) > 1:
        values[1] = _bits(random)
    if kind is Load:
        values[3] = random.randint(0, stamp)
    if kind is Trap and values[2] >> 63:
        values[1] = 0
    return kind(hart, stamp, *values)


def random_records(random: Random, count: int, harts: int) -> List[Record]:
    """Lawful records of several harts, as a file has them."""
    stamps = [random.choice((0, 5, 1 << 63)) for _ in range(harts)]
    records = []
    for _ in range(count):
        hart = random.randrange(harts)
        stamps[hart] = min(WORD, stamps[hart] + random.choice((0, 1, 1, 300, 1 << 40)))
        records.append(random_record(random, hart, stamps[hart]))
    return records


def program_or_skip() -> str:
    """The built program; the test is skipped where there is none, as no test may start its build."""
    named = os.environ.get("DIFFTEST_PROGRAM")
    if named:
        return named
    built = os.path.join(TOP, "crates", "difftest", "out", "difftest")
    if not os.path.exists(built):
        raise unittest.SkipTest("there is no built program, and DIFFTEST_PROGRAM is not set")
    return built


SECOND_CHECKER = f"""#!/bin/sh
PYTHONPATH='{CHECKS}' exec '{sys.executable}' -m second_opinion "$@"
"""


class CommandCase(FolderCase):
    """A test that runs commands. They judge by the built program, or by the second checker where there is none."""

    def setUp(self) -> None:
        super().setUp()
        try:
            self.program = program_or_skip()
        except unittest.SkipTest:
            self.program = self.put("second-checker", SECOND_CHECKER.encode())
            os.chmod(self.program, 0o755)

    def run_command(self, *words: str) -> Tuple[int, str]:
        """The status of a command and what it prints; what it says beside that stands in `said`."""
        out, said = io.StringIO(), io.StringIO()
        with patch.dict(os.environ, {"DIFFTEST_PROGRAM": self.program}):
            with contextlib.redirect_stdout(out), contextlib.redirect_stderr(said):
                status = main(list(words))
        self.said = said.getvalue()
        return status, out.getvalue()

    def records_of(self, name: str) -> Tuple[Record, ...]:
        """The records of a file of the folder, which has to be whole."""
        return read(self.path(name)).records


@lru_cache(maxsize=None)
def made_pair(number: int) -> Tuple[bytes, bytes]:
    """The image and the probe file of a made pair."""
    _, image, probes = make_pair(number)
    return bytes(image), bytes(probes)
