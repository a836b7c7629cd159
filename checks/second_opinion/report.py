"""The verdict over all harts and the text that is printed of it."""

from dataclasses import dataclass

from .atomic_checks import judge_atomic
from .drain_checks import judge_drain
from .judgement import REASONS, Case, Hart, NotAllowed, check_refill, check_state
from .memory import Memory
from .records import Key, writes_memory
from .retired_checks import judge_commit, judge_load, judge_store
from .trap_checks import judge_trap

LETTERS = "LSPIDCZ"
RETIRED = ("Commit", "Load", "Store", "Atomic")
JUDGES = {
    "Commit": judge_commit,
    "Trap": judge_trap,
    "Regs": check_state,
    "Csrs": check_state,
    "Load": judge_load,
    "Store": judge_store,
    "Atomic": judge_atomic,
    "Drain": judge_drain,
    "Refill": check_refill,
    "Beat": lambda case: None,
}


@dataclass
class Failure:
    """The first record of a hart that no rule allows."""

    key: Key
    reason: str
    expected: int
    found: int


def judge_hart(number, is_wide, records, memory):
    """Judges a hart's records in order; gives the allowed cases and a failure."""
    hart = Hart(number, is_wide)
    cases = []
    for record in records:
        case = Case(record, hart, memory)
        try:
            JUDGES[record.kind](case)
        except NotAllowed as refusal:
            failure = Failure(
                record.key, refusal.reason, refusal.expected, refusal.found
            )
            return cases, failure
        cases.append(case)
    return cases, None


def judge_file(image, file):
    """The least failure, if any, and the allowed records before it by key."""
    memory = Memory(image, file.records)
    cases, failures = [], []
    for number in range(file.harts):
        own = [record for record in file.records if record.hart == number]
        allowed, failure = judge_hart(number, file.is_wide, own, memory)
        cases += allowed
        if failure is not None:
            failures.append(failure)
    first = min(failures, key=lambda failure: failure.key, default=None)
    if first is not None:
        cases = [case for case in cases if case.record.key < first.key]
    cases.sort(key=lambda case: case.record.key)
    return first, cases


def report_text(harts, failure, cases, with_sources):
    """All lines of the report."""
    records = [case.record for case in cases]
    writes = sum(1 for record in records if writes_memory(record))
    lines = [verdict_line(failure)]
    lines.append(f"harts={harts} records={len(records)} writes={writes}")
    for number in range(harts):
        own = [record for record in records if record.hart == number]
        lines.append(hart_line(number, own))
    counts = (
        f"{letter}={sum(1 for case in cases if letter in case.letters)}"
        for letter in LETTERS
    )
    lines.append("rules " + " ".join(counts))
    if with_sources:
        lines += [note_line(case) for case in cases if case.letters or case.sources]
    return "".join(line + "\n" for line in lines)


def verdict_line(failure):
    """The first line: the verdict, with the failure where there is one."""
    if failure is None:
        return "PASS"
    key = failure.key
    return (
        f"FAIL stamp={key.stamp} hart={key.hart} seq={key.seq} "
        f"reason={REASONS[failure.reason]} {failure.reason} "
        f"expected={failure.expected:016x} found={failure.found:016x}"
    )


def hart_line(number, records):
    """The counts of one hart's records."""
    kinds = [record.kind for record in records]
    retired = sum(1 for kind in kinds if kind in RETIRED)
    return (
        f"hart {number} retired={retired} traps={kinds.count('Trap')} "
        f"loads={kinds.count('Load')} stores={kinds.count('Store')} "
        f"atomics={kinds.count('Atomic')} drains={kinds.count('Drain')}"
    )


def note_line(case):
    """The letters of a record and where the bytes that it read came from."""
    letters = "".join(letter for letter in LETTERS if letter in case.letters)
    return f"note {case.record.key} rules={letters or '-'} from={runs_of(case.sources)}"


def runs_of(sources):
    """The sources as runs of bytes with one source."""
    runs = []
    for place, source in enumerate(sources):
        if runs and runs[-1][2] == source:
            runs[-1][1] = place
        else:
            runs.append([place, place, source])
    return ",".join(f"{first}-{last}={source}" for first, last, source in runs) or "-"
