"""Files: what is written is read back, by this package and by the second checker, and faults have their places."""

from __future__ import annotations

import io
import struct
import unittest
from dataclasses import replace
from random import Random
from typing import Any, List, cast

from difftest_probes import (
    Atomic,
    Beat,
    Commit,
    Drain,
    Header,
    LimitReached,
    Load,
    Malformed,
    ProbeError,
    Reader,
    Record,
    Refill,
    Regs,
    Store,
    Trap,
    Unlawful,
    Writer,
    problems,
    write_file,
)
from difftest_probes import reader as reader_module
from difftest_probes import writer as writer_module
from difftest_probes.records import KINDS, Csrs, keyed
from difftest_probes.spelling import spell
from unittest.mock import patch

from .support import WORD, bytes_of, random_record, random_records, second_reading

ADDI = Commit(hart=0, stamp=1, pc=0x80000000, bits=0x00500093, value=5)
# addi x1,x0,5 of hart 0 in cycle 1, byte by byte in both versions.
FILE_1 = bytes.fromhex(
    "534d504449464600010001000000000001000100000000000000"
    "0000008000000000930050000500000000000000ff0100000000000000"
)
FILE_2 = bytes.fromhex("534d504449464600020001000000000001000107808080800893" "81c00205ff0100000000000000")


def fault_of(data: bytes) -> Malformed:
    """The first fault of a file that has one."""
    try:
        for _ in Reader(io.BytesIO(data)):
            pass
    except Malformed as fault:
        return fault
    raise AssertionError("the file is well formed")


def outcome(data: bytes) -> str:
    """How the reading of a file ends, in the program's words."""
    try:
        return f"END count={len(list(Reader(io.BytesIO(data))))}"
    except Malformed as fault:
        return f"MALFORMED offset={fault.offset}"


def second_outcome(data: bytes) -> str:
    """The same by the second checker's reader."""
    records, refusal = second_reading(data)
    return refusal if records is None else f"END count={len(records)}"


class WorkedFile(unittest.TestCase):
    """The file of docs/PROBE-FORMAT.md."""

    def test_both_versions(self) -> None:
        self.assertEqual(bytes_of([ADDI], 1, 1), FILE_1)
        self.assertEqual(bytes_of([ADDI], 1, 2), FILE_2)

    def test_reading(self) -> None:
        for data, version in ((FILE_1, 1), (FILE_2, 2)):
            reader = Reader(io.BytesIO(data))
            self.assertEqual(reader.header, Header(1, version, False))
            self.assertEqual(list(reader), [ADDI])
            self.assertTrue(reader.ended)

    def test_wide_flag(self) -> None:
        data = bytes_of([], 3, 2, True)
        self.assertEqual(data[8:12].hex(), "02000301")
        self.assertEqual(Reader(io.BytesIO(data)).header, Header(3, 2, True))


class RoundTrips(unittest.TestCase):
    """Random files of every kind."""

    def test_read_back(self) -> None:
        random = Random(1)
        for number in range(60):
            harts = random.randrange(1, 9)
            records = random_records(random, 40, harts)
            for version in (1, 2):
                data = bytes_of(records, harts, version, number % 2 == 1)
                self.assertEqual(list(Reader(io.BytesIO(data))), records)

    def test_every_kind_came(self) -> None:
        records = random_records(Random(1), 400, 8)
        self.assertEqual({type(record) for record in records}, set(KINDS))

    def test_second_checker_reads_the_same(self) -> None:
        random = Random(2)
        for _ in range(30):
            records = random_records(random, 40, 8)
            for version in (1, 2):
                found, refusal = second_reading(bytes_of(records, 8, version))
                self.assertEqual(refusal, "")
                assert found is not None
                for mine, (key, record) in zip(found, keyed(records)):
                    self.assert_same(mine, key, record)

    def assert_same(self, mine: Any, key: Any, record: Record) -> None:
        """Compares a record of the second checker, whose classes are its own."""
        self.assertEqual((mine.kind, tuple(mine.key)), (record.kind, tuple(key)))
        values = record.values()
        if isinstance(record, (Regs, Csrs)):
            first = mine.pc if isinstance(record, Regs) else mine.mode
            self.assertEqual((first, *mine.registers), values)
        else:
            self.assertEqual(tuple(getattr(mine, name) for name, _ in record.numbers), values)
        if isinstance(record, (Drain, Refill)):
            self.assertEqual(mine.data, record.content)

    def test_small_pieces(self) -> None:
        """A stream may give its bytes in any pieces."""
        records = random_records(Random(3), 50, 4)
        for version in (1, 2):
            for size in (1, 7, 300):
                with patch.object(reader_module, "PIECE_BYTES", size):
                    data = bytes_of(records, 4, version)
                    self.assertEqual(list(Reader(io.BytesIO(data))), records)


class Faults(unittest.TestCase):
    """Where a file is malformed: as the second checker says."""

    def test_cuts(self) -> None:
        for version in (1, 2):
            data = bytes_of(random_records(Random(4), 25, 3), 3, version)
            for length in range(len(data)):
                self.assertEqual(outcome_or_header(data[:length]), second_outcome(data[:length]))
                self.assertTrue(cut_fault(data[:length]).is_cut)

    def test_changed_bytes(self) -> None:
        random = Random(5)
        for _ in range(60):
            harts = random.randrange(1, 9)
            data = bytes_of(random_records(random, 12, harts), harts, random.choice((1, 2)))
            for _ in range(60):
                place = random.randrange(len(data))
                changed = data[:place] + bytes((random.getrandbits(8),)) + data[place + 1 :]
                self.assertEqual(outcome_or_header(changed), second_outcome(changed))

    def test_names_field_value_and_bound(self) -> None:
        records = [Beat(0, 1), replace(Drain(0, 2, 0x80000000, 1, 1, bytes(64)), line=0x10000000)]
        data = bytes_of([], 1)[:16] + b"".join(spell(record) for record in records)
        fault = fault_of(data)
        self.assertEqual((fault.number, fault.offset, fault.is_cut), (1, 26, False))
        assert fault.problem is not None
        self.assertEqual((fault.problem.field, fault.problem.value), ("line", 0x10000000))
        self.assertIn("a multiple of 64 in RAM", fault.problem.bound)

    def test_end(self) -> None:
        self.assertEqual(fault_of(FILE_1[:46] + struct.pack("<BQ", 255, 2)).offset, 46)
        self.assertEqual(fault_of(FILE_1 + b"\0").offset, 55)

    def test_goes_on_behind_a_cut(self) -> None:
        records = random_records(Random(6), 30, 2)
        for version in (1, 2):
            data = bytes_of(records, 2, version)
            stream = io.BytesIO(data[:16])
            reader, found = Reader(stream), []
            for end in list(range(16, len(data), 5)) + [len(data)]:
                place = stream.tell()
                stream.seek(0, io.SEEK_END)
                stream.write(data[stream.tell() : end])
                stream.seek(place)
                try:
                    for record in reader:
                        found.append(record)
                except Malformed as fault:
                    self.assertTrue(fault.is_cut)
            self.assertEqual(found, records)
            self.assertTrue(reader.ended)


def cut_fault(data: bytes) -> Malformed:
    """The fault of a file that is cut, in its header too."""
    try:
        return fault_of(data)
    except Malformed as fault:
        return fault


def outcome_or_header(data: bytes) -> str:
    """How the reading ends, where it may end in the header."""
    try:
        return outcome(data)
    except Malformed as fault:
        return f"MALFORMED offset={fault.offset}"


class Lawfulness(unittest.TestCase):
    """A record is lawful exactly where the second checker's reader takes it."""

    def test_random_records_around_the_bounds(self) -> None:
        random = Random(7)
        accepted = 0
        for _ in range(10_000):
            record = disturbed(random, random_record(random, random.randrange(9), random.getrandbits(8)))
            try:
                file = bytes_of([], 8)[:16] + spell(record) + struct.pack("<BQ", 255, 1)
            except struct.error:
                self.assertNotEqual(problems(record), ())
                continue
            lawful = second_reading(file)[0] is not None
            self.assertEqual(problems(record) == (), lawful, record)
            accepted += lawful
        self.assertTrue(2_000 < accepted < 9_000, accepted)

    def test_sizes(self) -> None:
        for record, field in (
            (replace(ADDI, pc=1 << 64), "pc"),
            (replace(ADDI, pc=-1), "pc"),
            (replace(ADDI, stamp=1 << 64), "stamp"),
            (Regs(0, 0, 0, (0,) * 30), "x"),
            (Regs(0, 0, 0, (0,) * 30 + (1 << 64,)), "x31"),
            (Csrs(0, 0, 3, (0,) * 18), "v"),
            (Drain(0, 0, 0x80000000, 1, 1, b""), "content"),
            (Drain(0, 0, 0x80000000, 1, 1 << 16, bytes(64)), "count"),
        ):
            self.assertEqual([problem.field for problem in problems(record)], [field])

    def test_each_bound_is_named(self) -> None:
        drain = Drain(0, 0, 0x80000000, 1, 1, bytes(64))
        atomic = Atomic(0, 0, 0, 0x2F, 0, 0x80000000, 8, 0, 0)
        for record, field in (
            (replace(ADDI, hart=8), "hart"),
            (replace(ADDI, bits=0x10001), "bits"),
            (Store(0, 0, 0, 0x10000, 0, 0), "bits"),
            (Load(0, 5, 0, 3, 0, 6, 0), "at"),
            (Trap(0, 0, 0, 0x10000, 2, 0), "bits"),
            (Trap(0, 0, 0, 0x13, 1 << 63, 0), "cause"),
            (Csrs(0, 0, 2, (0,) * 17), "mode"),
            (replace(atomic, width=2), "width"),
            (replace(atomic, paddr=0x80000004), "paddr"),
            (replace(atomic, paddr=0x84000000), "paddr"),
            (replace(atomic, wrote=2), "wrote"),
            (replace(atomic, new=1), "new"),
            (replace(atomic, width=4, wrote=1, new=1 << 32), "new"),
            (replace(drain, line=0x80000020), "line"),
            (replace(drain, mask=0), "mask"),
            (replace(drain, count=0), "count"),
            (replace(drain, content=b"\0\7" + bytes(62)), "bytes[1]"),
            (Refill(0, 0, 0x7FFFFFC0, bytes(64)), "line"),
        ):
            self.assertEqual([problem.field for problem in problems(record)], [field], record)


def disturbed(random: Random, record: Record) -> Record:
    """The record with one number put beside a bound, now and then."""
    names = [name for name, _ in record.numbers if hasattr(record, name)]
    if not names or random.random() < 0.2:
        return record
    name = random.choice(names)
    value = random.choice((0, 1, 2, 3, 4, 8, 0xFFFF, 0x10000, 0x80000000, 0x83FFFFFC, 0x84000000))
    value = random.choice((value, value + 1, value - 1, record.stamp, record.stamp + 1, 1 << 63, WORD))
    return replace(record, **{name: max(0, value)})


class Writing(unittest.TestCase):
    """What a writer refuses, and that it then writes nothing."""

    def test_refusals_write_nothing(self) -> None:
        stream = io.BytesIO()
        writer = Writer(stream, 2)
        writer.write(replace(ADDI, stamp=7))
        before = stream.getvalue()
        for record, what in (
            (replace(ADDI, bits=0x10001), "bits"),
            (replace(ADDI, hart=2), "hart"),
            (replace(ADDI, stamp=6), "stamp"),
        ):
            with self.assertRaisesRegex(Unlawful, f"record 1, Commit of hart {record.hart}: {what}="):
                writer.write(record)
        self.assertEqual(stream.getvalue(), before)
        writer.close()
        self.assertEqual(list(Reader(io.BytesIO(stream.getvalue()))), [replace(ADDI, stamp=7)])
        with self.assertRaises(ProbeError):
            writer.write(ADDI)

    def test_headers(self) -> None:
        for harts, version in ((0, 1), (9, 1), (1, 3)):
            with self.assertRaises(ProbeError):
                Writer(io.BytesIO(), harts, version)

    def left_early(self, records: List[Record], harts: int, version: int) -> bytes:
        """What stands in a file whose block was left by an exception behind these records."""
        stream = io.BytesIO()
        with self.assertRaises(KeyError), Writer(stream, harts, version) as writer:
            for record in records:
                writer.write(record)
            raise KeyError
        return stream.getvalue()

    def test_settled_end_after_an_exception(self) -> None:
        """The records below the least last stamp stay, in files of both versions."""
        random = Random(8)
        for number in range(20):
            harts, version = random.randrange(1, 4), number % 2 + 1
            records = random_records(random, 60, harts)
            last = {record.hart: record.stamp for record in records}
            least = min(last.get(hart, 0) for hart in range(harts))
            wanted = [record for record in records if record.stamp < least]
            found = list(Reader(io.BytesIO(self.left_early(records, harts, version))))
            for hart in range(harts):
                mine = [record for record in found if record.hart == hart]
                self.assertEqual(mine, [record for record in wanted if record.hart == hart])

    def test_no_end_where_too_much_was_kept_back(self) -> None:
        records: List[Record] = [Beat(0, n) for n in range(10)]
        with patch.object(writer_module, "MOST_HELD", 4):
            data = self.left_early(records, 2, 1)
            self.assertTrue(fault_of(data).is_cut)
            self.assertEqual(list(Reader(io.BytesIO(bytes_of(records, 2)))), records)

    def test_what_is_settled_is_written_at_once(self) -> None:
        stream = io.BytesIO()
        writer = Writer(stream, 2)
        rows = [(Beat(0, 1), 0), (Beat(0, 3), 0), (Beat(1, 2), 1), (Beat(1, 9), 1), (Beat(0, 10), 3)]
        for record, written in rows:
            writer.write(record)
            self.assertEqual(len(stream.getvalue()), 16 + 10 * written)
        writer.close()
        self.assertEqual(list(Reader(io.BytesIO(stream.getvalue()))), [record for record, _ in rows])

    def test_limits(self) -> None:
        drain = Drain(0, 1, 0x80000000, 1, 1, bytes(64))
        for name, most, records in (
            ("MOST_RECORDS", 3, [ADDI] * 4),
            ("MOST_WRITES", 2, [ADDI, drain, drain, drain]),
        ):
            records_: List[Record] = list(cast(List[Record], records))
            stream = io.BytesIO()
            with patch.object(writer_module, name, most), self.assertRaises(LimitReached):
                write_file(stream, Header(1), records_)
            data = bytes_of(records_, 1)
            with patch.object(reader_module, name, most):
                reader = Reader(io.BytesIO(data))
                with self.assertRaises(reader_module.BeyondLimit) as caught:
                    list(reader)
                self.assertEqual((caught.exception.number, reader.count), (most + 1, 3))
                self.assertEqual(len(list(Reader(io.BytesIO(data), limited=False))), 4)


if __name__ == "__main__":
    unittest.main()
