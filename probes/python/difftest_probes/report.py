"""The report of `difftest pass` as data."""

from __future__ import annotations

import re
from dataclasses import dataclass
from typing import Dict, List, NamedTuple, Optional, Tuple, Union

from .records import Key

LETTERS = "LSPIDCZ"

_FAILURE = re.compile(
    r"FAIL stamp=(\d+) hart=(\d+) seq=(\d+) reason=(\d+) (\w+)"
    r" expected=([0-9a-f]{16}) found=([0-9a-f]{16})"
)
_TOTALS = re.compile(r"harts=(\d+) records=(\d+) writes=(\d+)")
_HART = re.compile(
    r"hart (\d+) retired=(\d+) traps=(\d+) loads=(\d+) stores=(\d+) atomics=(\d+) drains=(\d+)"
)
_RULES = re.compile("rules " + " ".join(f"{letter}=(\\d+)" for letter in LETTERS))
_NOTE = re.compile(r"note (\d+\.\d+\.\d+) rules=([LSPIDCZ]+|-) from=(\S+)")
_REFUSALS = re.compile(
    r"USAGE|IMAGE TOO LONG|MALFORMED offset=\d+|READ FAULT (image|probes)|OUT OF MEMORY"
    r"|LIMIT (records|writes)=\d+"
)


class NotAReport(ValueError):
    """A text that no command of difftest prints."""


class Failure(NamedTuple):
    """The FAIL line: the first record that no rule allows, and what was compared."""

    key: Key
    reason: int
    name: str
    expected: int
    found: int


class HartCounts(NamedTuple):
    """What a hart did below the verdict's key."""

    retired: int
    traps: int
    loads: int
    stores: int
    atomics: int
    drains: int


class OwnStore(NamedTuple):
    """A source of bytes: the hart's own record of this seq, a store that no drain has taken yet."""

    seq: int


# Where bytes come from: the image (None), the record that wrote them, or an own store.
Source = Union[None, Key, OwnStore]


class Run(NamedTuple):
    """Neighbouring bytes of an access that come from one source, the first and the last of them."""

    first: int
    last: int
    source: Source


class Note(NamedTuple):
    """A record that used a rule or read RAM."""

    key: Key
    letters: str
    runs: Tuple[Run, ...]


@dataclass(frozen=True)
class Report:
    """What a run of `pass` printed.

    A refusal (MALFORMED, LIMIT and the like) has its line as `refusal`, and nothing else.
    """

    verdict: str
    failure: Optional[Failure] = None
    refusal: Optional[str] = None
    records: int = 0
    writes: int = 0
    harts: Tuple[HartCounts, ...] = ()
    letters: Tuple[int, ...] = (0,) * len(LETTERS)
    notes: Tuple[Note, ...] = ()
    replay: Tuple[str, ...] = ()

    def note_of(self, key: Key) -> Optional[Note]:
        """The note of a record, if there is one."""
        return next((note for note in self.notes if note.key == key), None)


def _source(text: str) -> Source:
    if text == "image":
        return None
    if text.startswith("store."):
        return OwnStore(int(text[len("store.") :]))
    return Key.of(text)


def _run(text: str) -> Run:
    places, _, source = text.partition("=")
    first, _, last = places.partition("-")
    return Run(int(first), int(last), _source(source))


def parse_note(line: str) -> Note:
    """The note that a line spells."""
    found = _NOTE.fullmatch(line)
    if not found:
        raise NotAReport(f"no note: {line}")
    key, letters, runs = found.groups()
    parts = () if runs == "-" else tuple(_run(part) for part in runs.split(","))
    return Note(Key.of(key), "" if letters == "-" else letters, parts)


def parse_failure(line: str) -> Failure:
    """The failure that a FAIL line spells."""
    found = _FAILURE.fullmatch(line)
    if not found:
        raise NotAReport(f"no FAIL line: {line}")
    stamp, hart, seq, reason, name, expected, value = found.groups()
    key = Key(int(stamp), int(hart), int(seq))
    return Failure(key, int(reason), name, int(expected, 16), int(value, 16))


def _numbers(pattern: re.Pattern[str], line: str) -> Tuple[int, ...]:
    found = pattern.fullmatch(line)
    if not found:
        raise NotAReport(f"not the line of a report that is due: {line}")
    return tuple(int(number) for number in found.groups())


def _verdict(line: str) -> Report:
    """A report with its first line alone."""
    if line == "PASS":
        return Report("PASS")
    if line.startswith("FAIL "):
        return Report("FAIL", parse_failure(line))
    if _REFUSALS.fullmatch(line):
        return Report("REFUSED", refusal=line)
    raise NotAReport(f"no verdict: {line}")


def _tail(lines: List[str]) -> Tuple[Tuple[Note, ...], Tuple[str, ...]]:
    """The notes, and the lines of a replay behind them."""
    split = next((n for n, line in enumerate(lines) if line.startswith("REPLAY ")), len(lines))
    return tuple(parse_note(line) for line in lines[:split]), tuple(lines[split:])


def parse_report(text: str) -> Report:
    """The report that `pass` or `check` printed, or its refusal."""
    lines = text.split("\n")
    if not text.endswith("\n"):
        raise NotAReport("the last line has no end")
    lines.pop()
    first = _verdict(lines[0])
    if first.refusal:
        if len(lines) > 1:
            raise NotAReport(f"a refusal has one line, and not {len(lines)}")
        return first
    if len(lines) < 2:
        raise NotAReport("the report stops behind its verdict")
    harts, records, writes = _numbers(_TOTALS, lines[1])
    if len(lines) < harts + 3:
        raise NotAReport("the report stops before its rules")
    counts = [_numbers(_HART, line) for line in lines[2 : harts + 2]]
    if [numbers[0] for numbers in counts] != list(range(harts)):
        raise NotAReport("the harts do not stand in order")
    letters = _numbers(_RULES, lines[harts + 2])
    notes, replay = _tail(lines[harts + 3 :])
    rows = tuple(HartCounts(*numbers[1:]) for numbers in counts)
    return Report(first.verdict, first.failure, None, records, writes, rows, letters, notes, replay)


def letter_counts(report: Report) -> Dict[str, int]:
    """How many records used each rule, by its letter."""
    return dict(zip(LETTERS, report.letters))
