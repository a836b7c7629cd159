"""Reports as data."""

from __future__ import annotations

import unittest

from difftest_probes import Key, OwnStore, parse_report
from difftest_probes.report import NotAReport, Run, letter_counts

PASSING = """PASS
harts=2 records=10 writes=1
hart 0 retired=5 traps=0 loads=0 stores=1 atomics=0 drains=1
hart 1 retired=4 traps=2 loads=1 stores=0 atomics=3 drains=0
rules L=1 S=0 P=2 I=0 D=0 C=0 Z=3
note 9.0.2 rules=- from=0-3=store.2,4-4=image,5-7=3.1.4
note 12.1.3 rules=LP from=0-7=10.0.5
note 13.1.4 rules=Z from=-
"""
FAILING = """FAIL stamp=12 hart=1 seq=3 reason=12 LoadSource expected=0000000000000007 found=00000000000000ff
harts=1 records=9 writes=1
hart 0 retired=5 traps=0 loads=0 stores=1 atomics=0 drains=1
rules L=0 S=0 P=0 I=0 D=0 C=0 Z=0
"""
REPLAY = (
    "REPLAY from=0 newer=0 records=1\n1.0.0 Beat\nREPLAY FAIL stamp=12 hart=1 seq=3 reason=12 LoadSource\n"
)


class Reports(unittest.TestCase):
    """Reports of every form."""

    def test_passing(self) -> None:
        report = parse_report(PASSING)
        self.assertEqual((report.verdict, report.records, report.writes), ("PASS", 10, 1))
        self.assertEqual(tuple(report.harts[1]), (4, 2, 1, 0, 3, 0))
        self.assertEqual(letter_counts(report)["P"], 2)
        note = report.note_of(Key(9, 0, 2))
        assert note is not None
        self.assertEqual(note.runs, (Run(0, 3, OwnStore(2)), Run(4, 4, None), Run(5, 7, Key(3, 1, 4))))
        self.assertEqual([note.letters for note in report.notes], ["", "LP", "Z"])
        self.assertEqual(report.notes[2].runs, ())
        self.assertIsNone(report.note_of(Key(9, 0, 3)))

    def test_failing(self) -> None:
        report = parse_report(FAILING + REPLAY)
        assert report.failure is not None
        self.assertEqual(report.failure, (Key(12, 1, 3), 12, "LoadSource", 7, 255))
        self.assertEqual(len(report.replay), 3)

    def test_refusals(self) -> None:
        for line in ("USAGE", "MALFORMED offset=16", "LIMIT writes=1048577", "READ FAULT image"):
            report = parse_report(line + "\n")
            self.assertEqual((report.verdict, report.refusal), ("REFUSED", line))

    def test_no_reports(self) -> None:
        for text in (
            "",
            "PASS",
            "PASS\n",
            "MAYBE\n",
            "USAGE\nUSAGE\n",
            PASSING.replace("hart 1", "hart 2"),
            PASSING.replace("rules L", "rules X"),
            PASSING.replace("from=-", "to=-"),
            PASSING.rsplit("rules", 1)[0],
            FAILING.replace("reason=12", "reason="),
        ):
            with self.assertRaises(NotAReport, msg=text):
                parse_report(text)


if __name__ == "__main__":
    unittest.main()
