"""Which records the writer takes, and their bytes."""

import collections
import os
import random
import subprocess
import tempfile
import unittest
from dataclasses import dataclass
from typing import Callable

from calls import (CALL_SMALL_WRITER, CALL_WRITER, OK, RAM_END, RAM_START, STAMP_FELL, SV48, TAGS,
                   UNLAWFUL, VERSION_2, Answer, Call, Field, answer, read, run, spell_file, write)

PROGRAM = os.environ.get("DIFFTEST")
# How many random records are tried.
RECORDS = int(os.environ.get("RECORDS", "10000"))
ONES = 2**64 - 1
WHOLE_LINE = b"\xff" * 64

# Records of hart 7 in the greatest cycle, each number as great as it can be.
GREATEST = [
    Call("commit", 7, ONES, [ONES, 2**32 - 1, ONES]),
    Call("trap", 7, ONES, [ONES, 0, ONES, ONES]),
    Call("trap", 7, ONES, [ONES, 2**32 - 1, 2**63 - 1, ONES]),
    Call("regs", 7, ONES, [ONES] * 32),
    Call("csrs", 7, ONES, [3] + [ONES] * 17),
    Call("load", 7, ONES, [ONES, 2**32 - 1, ONES, ONES, ONES]),
    Call("store", 7, ONES, [ONES, 2**32 - 1, ONES, ONES]),
    Call("atomic", 7, ONES, [ONES, 2**32 - 1, ONES, RAM_END - 8, 8, 1, ONES]),
    Call("atomic", 7, ONES, [ONES, 2**32 - 1, ONES, RAM_END - 4, 4, 1, 2**32 - 1]),
    Call("drain", 7, ONES, [RAM_END - 64, ONES, 65535, WHOLE_LINE]),
    Call("refill", 7, ONES, [RAM_END - 64, WHOLE_LINE]),
    Call("beat", 7, ONES),
]

# Fields in file order with a value that is out of its bound, and the name and bound in the problem.
COMMIT: "list[Field]" = [RAM_START, 0x00500093, 5]
TRAP: "list[Field]" = [RAM_START, 0x73, 8, 0]
ATOMIC: "list[Field]" = [RAM_START, 0x100535AF, 0, RAM_START + 64, 8, 0, 0]
CSRS: "list[Field]" = [0] * 18
DRAIN: "list[Field]" = [RAM_START, 1, 1, b"\1" + bytes(63)]
WRONG: "list[tuple[str, list[Field], int, Field, str, str]]" = [
    ("commit", COMMIT, 1, 0x10000, "bits", "below 0x10000"),
    ("commit", COMMIT, 1, 0x00500092, "bits", "below 0x10000"),
    ("load", [RAM_START, 3, 0, 10, RAM_START], 1, 0x10001, "bits", "below 0x10000"),
    ("load", [RAM_START, 3, 0, 10, RAM_START], 3, 11, "at", "at most the stamp"),
    ("store", [RAM_START, 0x23, RAM_START, 0], 1, 0xFFFF_FFFC, "bits", "below 0x10000"),
    ("trap", TRAP, 1, 0x10002, "bits", "below 0x10000"),
    ("trap", TRAP, 2, 2**63 + 7, "bits", "0 in an interrupt"),
    ("csrs", CSRS, 0, 2, "mode", "0, 1 or 3"),
    ("csrs", CSRS, 0, 4, "mode", "0, 1 or 3"),
    ("csrs", CSRS, 0, 256, "mode", "0, 1 or 3"),
    ("atomic", ATOMIC, 1, 0x10000, "bits", "below 0x10000"),
    ("atomic", ATOMIC, 3, RAM_START + 4, "paddr", "a multiple of the width in RAM"),
    ("atomic", ATOMIC, 3, RAM_END, "paddr", "a multiple of the width in RAM"),
    ("atomic", ATOMIC, 3, RAM_START - 8, "paddr", "a multiple of the width in RAM"),
    ("atomic", ATOMIC, 4, 2, "width", "4 or 8"),
    ("atomic", ATOMIC, 4, 264, "width", "4 or 8"),
    ("atomic", ATOMIC, 5, 2, "wrote", "0 or 1"),
    ("atomic", ATOMIC, 5, 256, "wrote", "0 or 1"),
    ("atomic", ATOMIC, 6, 1, "new", "0 where wrote is 0"),
    ("atomic", ATOMIC[:4] + [4, 1, 0], 6, 2**32, "new", "below 0x100000000"),
    ("drain", DRAIN, 0, RAM_START + 32, "line", "a multiple of 64 in RAM"),
    ("drain", DRAIN, 0, RAM_END, "line", "a multiple of 64 in RAM"),
    ("drain", DRAIN, 1, 0, "mask", "another number than 0"),
    ("drain", DRAIN, 1, 2, "bytes[0]", "0 where the mask has no bit"),
    ("drain", DRAIN, 3, b"\1" + bytes(62) + b"\2", "bytes[63]", "0 where the mask has no bit"),
    ("drain", DRAIN, 2, 0, "count", "1 to 65535"),
    ("drain", DRAIN, 2, 65536, "count", "1 to 65535"),
    ("refill", [RAM_START, bytes(64)], 0, RAM_START - 64, "line", "a multiple of 64 in RAM"),
]

# Values about each bound, by the field's place among the fields of its kind.
PLACES = [0, 4, RAM_START - 8, RAM_START - 4, RAM_START, RAM_START + 1, RAM_START + 2, RAM_START + 4,
          RAM_START + 8, RAM_END - 8, RAM_END - 4, RAM_END - 1, RAM_END, RAM_END + 8, ONES - 7, ONES]
LINES = [0, 64, RAM_START - 64, RAM_START, RAM_START + 8, RAM_START + 32, RAM_START + 64, RAM_END - 64,
         RAM_END - 32, RAM_END, ONES - 63, ONES]
BITS = [0, 1, 2, 3, 0x9002, 0xFFFC, 0xFFFD, 0xFFFE, 0xFFFF, 0x10000, 0x10001, 0x10002, 0x10003, 0x00500092,
        0x00500093, 0xFFFF_FFFC, 0xFFFF_FFFF]
CAUSES = [0, 1, 2, 11, 12, 13, 15, 2**63 - 1, 2**63, 2**63 + 1, 2**63 + 7, 2**63 + 12, ONES]
NUMBERS = [0, 1, 2**31, 2**32 - 1, 2**32, 2**32 + 1, 2**63, ONES]


@dataclass
class Case:
    """A record behind a beat of each hart."""

    harts: int
    flags: int
    beats: "list[Call]"
    call: Call

    def expected_status(self, flags: int) -> int:
        """What the second checker's reader says of the record in a file with these flags."""
        if read(spell_file(self.harts, flags, [*self.beats, self.call])) is not None:
            return OK
        return UNLAWFUL if read(spell_file(self.harts, flags, [self.call])) is None else STAMP_FELL


class Draws:
    """Random records with values about the bounds."""

    def __init__(self, seed: int) -> None:
        self.random = random.Random(seed)

    def mostly(self, usual: int, others: "list[int]") -> int:
        """The usual value, or now and then one of the others."""
        return usual if self.random.random() < 0.7 else self.random.choice(others)

    def number(self) -> int:
        """Any number of 64 bits."""
        return self.random.choice([*NUMBERS, self.random.getrandbits(64), self.random.getrandbits(7)])

    def bits(self) -> int:
        """Bits of an instruction."""
        return self.mostly(self.random.getrandbits(32) | 3, BITS)

    def line_bytes(self, mask: int) -> bytes:
        """Bytes of a line, now and then one that the mask does not have."""
        line = bytearray(self.random.getrandbits(8) if mask >> place & 1 else 0 for place in range(64))
        if self.random.random() < 0.2:
            line[self.random.randrange(64)] = self.random.choice([0, 1, 255])
        return bytes(line)

    def commit(self, _: int) -> "list[Field]":
        """Fields of a Commit."""
        return [self.number(), self.bits(), self.number()]

    def trap(self, _: int) -> "list[Field]":
        """Fields of a Trap."""
        bits = self.random.choice([0, self.bits(), self.random.choice(BITS)])
        return [self.number(), bits, self.random.choice(CAUSES), self.number()]

    def regs(self, _: int) -> "list[Field]":
        """Fields of a Regs."""
        return [self.number() for _ in range(32)]

    def csrs(self, _: int) -> "list[Field]":
        """Fields of a Csrs."""
        return [self.mostly(1, [0, 2, 3, 4, 255]), *(self.number() for _ in range(17))]

    def load(self, stamp: int) -> "list[Field]":
        """Fields of a Load."""
        at_cycle = self.mostly(stamp, [max(stamp - 1, 0), min(stamp + 1, ONES), 0, ONES])
        return [self.number(), self.bits(), self.number(), at_cycle, self.number()]

    def store(self, _: int) -> "list[Field]":
        """Fields of a Store."""
        return [self.number(), self.bits(), self.number(), self.number()]

    def atomic(self, _: int) -> "list[Field]":
        """Fields of an Atomic."""
        wrote = self.mostly(self.random.randrange(2), [0, 1, 2, 255])
        new = self.mostly(0, NUMBERS) if wrote == 0 else self.random.choice(NUMBERS)
        width = self.mostly(self.random.choice([4, 8]), [0, 1, 2, 5, 16, 255])
        return [self.number(), self.bits(), self.number(), self.mostly(RAM_START + 64, PLACES), width, wrote,
                new]

    def drain(self, _: int) -> "list[Field]":
        """Fields of a Drain."""
        mask = self.mostly(self.random.getrandbits(64), [0, 1, 2**63, ONES])
        count = self.mostly(1, [0, 1, 2, 65534, 65535])
        return [self.mostly(RAM_START + 128, LINES), mask, count, self.line_bytes(mask)]

    def refill(self, _: int) -> "list[Field]":
        """Fields of a Refill."""
        return [self.mostly(RAM_START + 128, LINES), self.line_bytes(ONES)]

    def beat(self, _: int) -> "list[Field]":
        """Fields of a Beat."""
        return []

    def call(self, harts: int, last_stamp: int) -> Call:
        """A record of any kind, behind the last stamp or about it."""
        kind = self.random.choice(list(TAGS))
        stamp = self.mostly(last_stamp + self.random.choice([0, 1, 200]),
                            [0, max(last_stamp - 1, 0), last_stamp, ONES])
        hart = self.mostly(self.random.randrange(harts), [0, harts - 1, harts, 7, 8, 255])
        fields: "Callable[[int], list[Field]]" = getattr(self, kind)
        return Call(kind, hart, stamp, fields(stamp))

    def case(self) -> Case:
        """A record of any kind in any file."""
        harts, flags = self.random.randrange(1, 9), self.random.randrange(4)
        last_stamp = self.random.choice([0, 1, 1000, ONES - 200])
        beats = [Call("beat", hart, last_stamp) for hart in range(harts)]
        return Case(harts, flags, beats, self.call(harts, last_stamp))


def has_more_bytes(call: Call) -> bool:
    """Whether a drain has a byte that is not 0 beside its mask: version 2 cannot spell it."""
    if call.kind != "drain":
        return False
    mask, line = call.fields[1], call.fields[3]
    assert isinstance(mask, int) and isinstance(line, bytes)
    return any(byte and not mask >> place & 1 for place, byte in enumerate(line))


class Lawful(unittest.TestCase):
    """Records are taken where the reader takes them."""

    def test_greatest_numbers(self) -> None:
        for flags in (0, SV48, VERSION_2, SV48 | VERSION_2):
            for program in (CALL_WRITER, CALL_SMALL_WRITER):
                answers, file = write(8, flags, GREATEST, program)
                self.assertEqual({each.status for each in answers}, {OK})
                self.assertEqual(file, spell_file(8, flags, GREATEST))
                found = read(file)
                assert found is not None
                self.assertEqual(len(found.records), len(GREATEST))

    @unittest.skipIf(PROGRAM is None, "the variable DIFFTEST does not name the program")
    def test_as_the_program_converts(self) -> None:
        files = {flags: write(8, SV48 | flags, GREATEST)[1] for flags in (0, VERSION_2)}
        for flags, file in files.items():
            for version, wanted in ((1, files[0]), (2, files[VERSION_2])):
                with tempfile.NamedTemporaryFile() as probes:
                    probes.write(file)
                    probes.flush()
                    done = subprocess.run([str(PROGRAM), "convert", "--to", str(version), probes.name],
                                          stdout=subprocess.PIPE, check=False)
                self.assertEqual((done.returncode, done.stdout), (0, wanted), f"flags {flags}")

    def test_each_bound_is_named(self) -> None:
        for kind, fields, place, value, name, bound in WRONG:
            good = Call(kind, 1, 10, fields)
            bad = Call(kind, 1, 10, [*fields[:place], value, *fields[place + 1:]])
            answers, file = write(2, 0, [good, bad, good])
            self.assertEqual([each.status for each in answers], [OK, OK, UNLAWFUL, OK, UNLAWFUL], bad)
            self.assertEqual(file, spell_file(2, 0, [good, good]))
            text = f"record 1, hart 1, stamp 10, {kind.capitalize()}: {name}="
            self.assertTrue(answers[2].problem.startswith(text), answers[2].problem)
            self.assertIn(f"must be {bound}", answers[2].problem)

    def test_hart_and_stamp(self) -> None:
        answers, file = write(2, 0, [Call("beat", 1, 10), Call("beat", 1, 9), Call("beat", 2, 11),
                                     Call("beat", 0, 0)])
        self.assertEqual([each.status for each in answers], [OK, OK, STAMP_FELL, UNLAWFUL, OK, STAMP_FELL])
        self.assertEqual(answers[2].problem, "record 1, hart 1, stamp 9, Beat: stamp=9 (0x9), must be at "
                         "least that of the hart's last record")
        self.assertEqual(answers[3].problem, "record 1, hart 2, stamp 11, Beat: hart=2 (0x2), must be below "
                         "the harts of the file")
        self.assertEqual(file, spell_file(2, 0, [Call("beat", 1, 10), Call("beat", 0, 0)]))

    def test_bits_where_the_fetch_failed(self) -> None:
        calls = [Call("trap", 0, 1, [0, bits, cause, 0]) for cause in (1, 12) for bits in BITS]
        answers, file = write(1, 0, calls)
        self.assertEqual({each.status for each in answers}, {OK})
        self.assertEqual(file, spell_file(1, 0, calls))
        self.assertIsNotNone(read(file))

    def test_long_records(self) -> None:
        """More than a buffer has room for, though not as many as it has places for."""
        calls = [Call("regs", 0, stamp, [ONES - stamp] * 32) for stamp in range(2000)]
        for flags in (0, VERSION_2):
            for program in (CALL_WRITER, CALL_SMALL_WRITER):
                answers, file = write(1, flags, calls, program)
                self.assertEqual({each.status for each in answers}, {OK})
                self.assertTrue(file == spell_file(1, flags, calls))

    def test_random_records(self) -> None:
        draws, lines = Draws(1), []
        cases = [draws.case() for _ in range(RECORDS)]
        for case in cases:
            calls = [*case.beats, case.call]
            lines += [f"open {case.harts} {case.flags} -", *(each.line() for each in calls), "close"]
        answers = iter(run(lines, CALL_SMALL_WRITER))
        seen: "collections.Counter[tuple[str, int]]" = collections.Counter()
        for number, case in enumerate(cases):
            found = [answer(next(answers)) for _ in range(len(case.beats) + 3)]
            with self.subTest(number=number, case=case):
                self.assert_case(case, found, bytes.fromhex(next(answers)))
            seen[case.call.kind, found[-2].status] += 1
        for kind in TAGS:
            for status in (OK, UNLAWFUL, STAMP_FELL):
                self.assertGreater(seen[kind, status], RECORDS // 2000, f"{kind} with status {status}")

    def assert_case(self, case: Case, found: "list[Answer]", file: bytes) -> None:
        """The answers to the open, the beats, the record and the close, and the bytes."""
        status = case.expected_status(0)
        if not has_more_bytes(case.call):
            self.assertEqual(status, case.expected_status(case.flags))
        self.assertEqual({each.status for each in found[:-2]}, {OK})
        self.assertEqual([each.status for each in found[-2:]], [status] * 2, found[-2].problem)
        self.assertEqual(found[-2].records, len(case.beats) + (status == OK))
        self.assertEqual(found[-2].problem == "", status == OK)
        taken = [*case.beats, case.call] if status == OK else case.beats
        self.assertEqual(file, spell_file(case.harts, case.flags, taken))


if __name__ == "__main__":
    unittest.main()
