"""The commands that judge a run and show it: explain, coverage, triage, vcd, view."""

from __future__ import annotations

import json
import os
import re
import shutil
import subprocess
import sys
import unittest
import xml.etree.ElementTree as ElementTree
from importlib.machinery import SourceFileLoader
from importlib.util import module_from_spec, spec_from_loader
from typing import Any, List, Tuple
from unittest.mock import patch

from difftest_probes import (
    Atomic,
    Beat,
    Commit,
    Csrs,
    Drain,
    Key,
    Load,
    OwnStore,
    Record,
    Regs,
    Store,
    Trap,
    keyed,
    parse_report,
    read,
)
from difftest_probes.assembly import disassemble, find_objdump
from difftest_probes.commands import view
from difftest_probes.commands.explain import explanation
from difftest_probes.drawing import arrows_of
from difftest_probes.evidence import gather
from difftest_probes.isa import assembler as asm
from difftest_probes.layout import BOX_HEIGHT, BOX_WIDTH, Router, lay_out
from difftest_probes.program import TOP
from difftest_probes.reasons import JUDGEMENT, REASONS, reason_text
from difftest_probes.shadow import ShadowHart

from .support import CHECKS, CommandCase, bytes_of, made_pair, second_answer
from .test_commands import words_of

DATA = os.path.join(TOP, "crates", "difftest", "data")
IMAGE, FAILING, PASSING = (
    os.path.join(DATA, name)
    for name in ("store-load.image", "store-load-fail.probes", "store-load-pass.probes")
)
RAM = 0x80000000
SVG = "{http://www.w3.org/2000/svg}"


def worked_rows() -> List[Any]:
    """The rows of checks/worked-rows: name, image, probe file, status, lines of the report, notes."""
    loader = SourceFileLoader("worked_rows", os.path.join(CHECKS, "worked-rows"))
    spec = spec_from_loader("worked_rows", loader)
    assert spec is not None
    module = module_from_spec(spec)
    with patch.object(sys, "dont_write_bytecode", True):
        loader.exec_module(module)
    return list(module.ROWS)


class Reasons(unittest.TestCase):
    """What the page on the judgement says."""

    def test_each_has_its_row(self) -> None:
        for number, name in enumerate(REASONS, 1):
            text = reason_text(number)
            self.assertIsNotNone(text, name)
            assert text is not None
            self.assertTrue(text.expected and text.found and text.look, name)
            with open(JUDGEMENT, encoding="utf-8") as page:
                row = next(line for line in page if line.startswith(f"| {number} | "))
            if row.rstrip().endswith(": below |"):
                self.assertIn(f"**{number} {name}", text.more)

    def test_lists_stay_with_their_paragraph(self) -> None:
        text = reason_text(REASONS.index("Order") + 1)
        assert text is not None
        self.assertIn("- The floor: ", text.more)
        self.assertNotIn("**15 Undrained", text.more)

    def test_no_page(self) -> None:
        self.assertIsNone(reason_text(1, "/nowhere"))


class Assembly(unittest.TestCase):
    """Instructions as text, with objdump and without."""

    def test_own_words(self) -> None:
        with patch("difftest_probes.assembly.find_objdump", return_value=None):
            found = disassemble([(RAM, asm.jal(0, -4)), (RAM, 0x00500093), (RAM, 0x53)])
        self.assertEqual(list(found.values()), ["jal 0x7ffffffc", "addi", "no instruction of the profile"])

    @unittest.skipUnless(find_objdump(), "there is no objdump for RISC-V")
    def test_objdump(self) -> None:
        places = [
            (RAM, 0x00500093),
            (RAM + 4, asm.branch("ne", 14, 0, -4)),
            (RAM + 8, 0xA001),
            (0, 0x7F),
            (0, 0x0001),
            (4, asm.atomic("add", 8, 1, 2, 3)),
        ]
        self.assertEqual(
            list(disassemble(places).values()),
            [
                "li x1,5",
                f"bnez x14,0x{RAM:x}",
                f"j 0x{RAM + 8:x}",
                ".word 0x0000007f",
                "nop",
                "amoadd.d x1,x3,(x2)",
            ],
        )


class Shadow(unittest.TestCase):
    """The mode and the registers that records show."""

    def test_modes(self) -> None:
        hart = ShadowHart(0)
        hart.take(Commit(0, 1, RAM, asm.addi(1, 0, 8), 8))
        hart.take(Commit(0, 1, RAM, asm.csr("write", 0x302, 0, 1), 0))
        hart.take(Commit(0, 1, RAM, asm.MRET, 0))
        self.assertEqual((hart.mode, hart.x[1], hart.csrs["medeleg"]), (0, 8, 8))
        hart.take(Trap(0, 2, RAM, asm.EBREAK, 3, RAM))
        self.assertEqual((hart.mode, hart.csrs["scause"]), (1, 3))
        hart.take(Trap(0, 2, RAM, asm.ECALL, 9, 0))
        self.assertEqual((hart.mode, hart.csrs["mcause"]), (3, 9))

    def test_sv48_in_wide_files_alone(self) -> None:
        for wide in (False, True):
            hart = ShadowHart(0, wide)
            hart.take(Commit(0, 1, RAM, asm.upper(1, 0, False), 9 << 60 | 5))
            hart.take(Commit(0, 1, RAM, asm.csr("write", 0x180, 0, 1), 0))
            hart.mode = 1
            view_ = hart.fetch_view()
            self.assertEqual((view_.on, view_.levels), (wide, 4 if wide else 3))


class ShadowOfRuns(CommandCase):
    """In a run that passes, the records of registers show what the shadow has."""

    def test_made_pairs(self) -> None:
        shown = 0
        for number in (4, 22, 28, 36, 40, 63, 70, 79, 99, 105, 116, 139, 168, 177, 181):
            image, probes = (
                self.put(name, part) for name, part in zip(("image", "probes"), made_pair(number))
            )
            if second_answer(image, probes)[0] != 0:
                continue
            file = read(probes)
            harts = [ShadowHart(hart, file.header.wide) for hart in range(file.header.harts)]
            for record in file.records:
                shadow = harts[record.hart]
                if isinstance(record, Regs):
                    self.assertEqual(tuple(shadow.x[1:]), record.x, number)
                    shown += 1
                elif isinstance(record, Csrs):
                    kept = tuple(shadow.csrs.kept.values())
                    self.assertEqual((shadow.mode, kept), (record.mode, record.v), number)
                    shown += 1
                shadow.take(record)
        self.assertGreater(shown, 10)


class Explain(CommandCase):
    """What is said of a FAIL."""

    def test_load(self) -> None:
        status, text = self.run_command("explain", IMAGE, FAILING)
        self.assertEqual(status, 1)
        for part in (
            "FAIL in cycle 12, hart 1, record 3 of that hart: LoadSource",
            "expected 0000000000000007: the value at the newest visible moment",
            "**12 LoadSource.** Look in the `dump`",
            "-> 12.1.3         Load pc=0000000080000014",
            "   10.0.5         Drain line=0000000080000100 mask=00000000000000ff count=1",
        ):
            self.assertIn(part, text)
        self.assertNotIn("10.0.4", text)

    def test_pass(self) -> None:
        status, text = self.run_command("explain", IMAGE, PASSING)
        self.assertEqual((status, text.split(":")[0]), (0, "PASS"))

    def test_refusal(self) -> None:
        status, text = self.run_command("explain", IMAGE, self.put("probes", b"SMPDIFF"))
        self.assertEqual((status, text.split(":")[0]), (2, "MALFORMED offset=0"))

    def test_profile_hint(self) -> None:
        word = asm.csr("write", 0x3B0, 0, 0)
        image = self.put("image", words_of(word))
        probes = self.put("probes", bytes_of([Commit(0, 1, RAM, word, 0)], 1))
        status, text = self.run_command("explain", image, probes)
        self.assertEqual(status, 1)
        self.assertIn("Hint: register 3b0 (pmpaddr: PMP) is not in the profile", text)

    def test_hints(self) -> None:
        """What a core or a probe that does not fit is told, and that a fitting one is told nothing."""
        misaligned = asm.load(8, True, 1, 5, 1)
        setup = Commit(0, 1, RAM, asm.upper(5, 0, True), RAM)
        cases: List[Tuple[List[Record], str]] = [
            ([Commit(0, 1, 0x1000, asm.addi(0, 0, 0), 0)], "every hart begins at 80000000"),
            ([Trap(0, 1, RAM + 4, 0, 1 << 63 | 7, 0)], "what mepc or sepc gets"),
            ([Commit(0, 1, RAM, asm.addi(0, 0, 0), 0)], "bits are those that were fetched"),
            ([setup, Load(0, 3, RAM + 4, misaligned, 0, 3, RAM)], "-mstrict-align"),
            ([Drain(0, 1, RAM, 1, 1, bytes(64))], "behind the Stores that it takes"),
            ([Commit(0, 1, RAM, asm.upper(5, 0, True), RAM + 1)], ""),
        ]
        for rows, said in cases:
            image = words_of(asm.upper(5, 0, True), misaligned)
            files = self.put("image", image), self.put("probes", bytes_of(rows, 1))
            status, text = self.run_command("explain", *files)
            self.assertEqual(status, 1)
            self.assertEqual("Hint: " in text, bool(said), text)
            self.assertIn(said, text)

    def test_hint_of_an_address(self) -> None:
        word = asm.load(8, True, 1, 0, -8)
        rows: List[Record] = [Load(0, 1, RAM, word, 0, 1, (1 << 64) - 8)]
        files = self.put("image", words_of(word)), self.put("probes", bytes_of(rows, 1))
        _, text = self.run_command("explain", *files)
        self.assertIn("Hint: there is no memory at this address", text)

    def test_last_records(self) -> None:
        rows: List[Record] = [Beat(0, n) for n in range(30)]
        rows.append(Commit(0, 40, RAM + 4, 0x00500093, 5))
        image, probes = self.put("image", words_of(0x00500093)), self.put("probes", bytes_of(rows, 1))
        _, text = self.run_command("explain", image, probes)
        self.assertEqual(text.count(" Beat"), 12)
        _, text = self.run_command("explain", "--records", "3", image, probes)
        self.assertEqual(text.count(" Beat"), 3)

    def test_every_reason(self) -> None:
        """The worked rows have each reason; each FAIL is explained, with what is said of its reason."""
        names = set()
        for name, image, probes, status, lines, notes in worked_rows():
            if status != 1:
                continue
            report = parse_report("".join(line + "\n" for line in lines + notes))
            assert report.failure is not None
            evidence = gather(self.put("probes", probes), report, 13)
            text = "\n".join(explanation(report, evidence))
            key = report.failure.key
            self.assertIn(f"\n-> {key} ", text, name)
            self.assertIn(f"Reason {report.failure.reason} {report.failure.name}\n   expected ", text, name)
            names.add(report.failure.name)
        self.assertEqual(names, set(REASONS))

    def test_made_pairs(self) -> None:
        """Each failing pair is explained, whatever its reason; the failing record is marked."""
        names = set()
        for number in (8, 14, 31, 42, 44, 124, 199):
            image, probes = (
                self.put(name, part) for name, part in zip(("image", "probes"), made_pair(number))
            )
            status, text = self.run_command("explain", image, probes)
            match = re.match(r"FAIL in cycle (\d+), hart (\d+), record (\d+) of that hart: (\w+)", text)
            assert match, text
            self.assertEqual((status, text.count("\n-> ")), (1, 1))
            self.assertIn(f"\n-> {'.'.join(match.groups()[:3])} ", text)
            names.add(match.group(4))
        self.assertGreater(len(names), 3)


class CoverageCommand(CommandCase):
    """Counts, and what could not come."""

    def test_counts(self) -> None:
        status, text = self.run_command("coverage", "--json", self.path("one"), IMAGE, PASSING)
        self.assertEqual(status, 0)
        data = json.loads(self.get("one"))
        self.assertEqual(
            data["instructions"], {"addi": 1, "auipc": 2, "bne": 2, "csrrs": 2, "ld": 1, "sd": 1}
        )
        self.assertEqual(data["modes"], {"M": 9})
        self.assertEqual(data["sources"], {"another hart's write": 1})
        self.assertEqual((data["letters"]["L"], data["asked"]["DrainCount"]), (1, 1))
        self.assertIn("Refill", data["never"])
        self.assertNotIn("LoadSource", data["never"])
        self.assertIn("could not come: Cause, Tval, Interrupt, Order", text)

    def test_merge(self) -> None:
        self.run_command("coverage", "--json", self.path("one"), IMAGE, PASSING)
        one = self.path("one")
        self.run_command("coverage", "--merge", one, "--json", self.path("two"), IMAGE, PASSING)
        first, both = json.loads(self.get("one")), json.loads(self.get("two"))
        self.assertEqual((both["files"], both["records"]), (2, 20))
        self.assertEqual(both["instructions"], {name: 2 * n for name, n in first["instructions"].items()})

    def test_no_drain_says_so(self) -> None:
        word = asm.store(8, 0, 0, 0)
        image = self.put("image", words_of(word))
        probes = self.put("probes", bytes_of([Store(0, 1, RAM, word, 0, 0)], 1))
        _, text = self.run_command("coverage", image, probes)
        never = text.splitlines()[-1]
        for name in ("DrainCount", "DrainData", "Barrier", "LoadSource"):
            self.assertIn(name, never)
        self.assertNotIn("StoreData", never)

    def test_behind_the_failure_nothing_counts(self) -> None:
        rows: List[Record] = [Commit(0, 1, RAM, 0x00500093, 6), Commit(0, 2, RAM + 4, 0x00500093, 5)]
        image, probes = self.put("image", words_of(0x00500093)), self.put("probes", bytes_of(rows, 1))
        self.run_command("coverage", "--json", self.path("one"), image, probes)
        self.assertEqual(json.loads(self.get("one"))["instructions"], {"addi": 1})

    def test_every_reason_can_be_asked(self) -> None:
        """Over many kinds of runs each reason is asked: none is forgotten."""
        words = ["coverage", "--json", self.path("all")]
        for number in (4, 27, 36, 42, 44, 59, 103, 105, 116, 169):
            image, probes = made_pair(number)
            if second_answer(self.put("i", image), self.put("p", probes))[1].startswith("MALFORMED"):
                continue
            words += [self.put(f"{number}.image", image), self.put(f"{number}.probes", probes)]
        self.run_command(*words)
        data = json.loads(self.get("all"))
        self.assertEqual([name for name in data["never"] if name not in ("Barrier", "Order", "Adopt")], [])

    def test_fences_ask(self) -> None:
        store, load = asm.store(8, 0, 5, 0), asm.load(8, True, 1, 5, 64)
        fence = asm.fence(0, 3, 3)
        words = [asm.upper(5, 0, True), store, fence, load]
        rows: List[Record] = [
            Commit(0, 1, RAM, words[0], RAM),
            Store(0, 2, RAM + 4, store, RAM, 0),
            Commit(0, 3, RAM + 8, fence, 0),
            Drain(0, 4, RAM, 0xFF, 1, bytes(64)),
            Load(0, 5, RAM + 12, load, 0, 5, RAM + 64),
        ]
        image, probes = self.put("image", words_of(*words)), self.put("probes", bytes_of(rows, 1))
        self.run_command("coverage", "--json", self.path("one"), image, probes)
        asked = json.loads(self.get("one"))["asked"]
        self.assertEqual((asked["Order"], asked["Barrier"], asked["LoadSource"]), (1, 1, 1))


class Triage(CommandCase):
    """Many reports."""

    def put_report(self, name: str, image: str, probes: str) -> str:
        """A report beside its probe file."""
        with open(probes, "rb") as source:
            self.put(f"{name}.probes", source.read())
        return self.put(f"{name}.report", second_answer(image, probes)[1].encode())

    def test_groups(self) -> None:
        reports = [self.put_report(f"fail{n}", IMAGE, FAILING) for n in range(3)]
        reports += [self.put_report("pass", IMAGE, PASSING), self.put("broken.report", b"")]
        status, text = self.run_command(
            "triage", *reports, "--json", self.path("json"), "--junit", self.path("junit")
        )
        self.assertEqual(status, 1)
        lines = [line.split() for line in text.splitlines()]
        self.assertEqual(lines[0][:2], ["3", "LoadSource"])
        self.assertIn("0000000080000014", lines[0])
        groups = json.loads(self.get("json"))["groups"]
        self.assertEqual([group["count"] for group in groups], [3, 1, 1])
        self.assertEqual(groups[0]["reports"], reports[:3])
        suite = ElementTree.fromstring(self.get("junit"))
        self.assertEqual([suite.get(name) for name in ("tests", "failures", "errors")], ["5", "3", "1"])
        self.assertEqual(len(suite.findall("testcase/failure")), 3)
        self.assertEqual(len(suite.findall("testcase/error")), 1)

    def test_all_passed(self) -> None:
        self.assertEqual(self.run_command("triage", self.put_report("pass", IMAGE, PASSING))[0], 0)

    def test_without_probes(self) -> None:
        report = self.put("x.report", second_answer(IMAGE, FAILING)[1].encode())
        self.assertIn("LoadSource  no probe file", self.run_command("triage", report)[1])


class Waves(CommandCase):
    """VCD."""

    def test_times_and_failure(self) -> None:
        out = self.path("run.vcd")
        self.assertEqual(self.run_command("vcd", IMAGE, FAILING, "-o", out)[0], 0)
        lines = self.get("run.vcd").decode().splitlines()
        names = {line.split()[4]: line.split()[3] for line in lines if line.startswith("$var")}
        at = lines.index("#120")
        self.assertIn(f"1{names['fail']}", lines[at:])
        self.assertNotIn(f"1{names['fail']}", lines[:at])
        self.assertEqual(lines[-1], "#121")
        self.assertEqual(sum(line.startswith("sCommit ") for line in lines), 7)

    def test_part(self) -> None:
        out = self.path("run.vcd")
        self.run_command("vcd", IMAGE, FAILING, "-o", out, "--from", "10", "--to", "10", "--period", "4")
        times = [line for line in self.get("run.vcd").decode().splitlines() if line.startswith("#")]
        self.assertEqual(times, ["#0", "#40", "#41"])

    @unittest.skipUnless(shutil.which("vcd2fst"), "there is no vcd2fst (Debian: gtkwave)")
    def test_waves_are_read(self) -> None:
        image, probes = (self.put(name, part) for name, part in zip(("image", "probes"), made_pair(4)))
        self.run_command("vcd", image, probes, "-o", self.path("run.vcd"))
        words = ["vcd2fst", self.path("run.vcd"), self.path("run.fst")]
        done = subprocess.run(words, stdout=subprocess.PIPE, stderr=subprocess.STDOUT, check=False)
        self.assertEqual(done.returncode, 0, done.stdout)
        self.assertGreater(os.path.getsize(self.path("run.fst")), 500)


class View(CommandCase):
    """The page."""

    def picture_of(self, image: str, probes: str, *more: str) -> Tuple[ElementTree.Element, str]:
        """The picture in the page, and the page."""
        self.assertEqual(self.run_command("view", image, probes, "-o", self.path("run.html"), *more)[0], 0)
        page = self.get("run.html").decode()
        start = page.index('<svg xmlns="')
        end = page.index("</div></div>\n<script>")
        return ElementTree.fromstring(page[start:end]), page

    def arrows_in(self, picture: ElementTree.Element) -> List[str]:
        """What the arrows say."""
        paths = picture.findall(f"{SVG}path[@marker-end]")
        return sorted(path.findtext(f"{SVG}title", "") for path in paths)

    def test_pass(self) -> None:
        picture, page = self.picture_of(IMAGE, PASSING)
        self.assertEqual(self.arrows_in(picture), ["10.0.5 to 12.1.3: read"])
        self.assertEqual(len(picture.findall(f"{SVG}g")), 10)
        self.assertIn("<title>PASS</title>", page)

    def test_failing_load(self) -> None:
        picture, page = self.picture_of(IMAGE, FAILING)
        self.assertEqual(self.arrows_in(picture), ["10.0.5 to 12.1.3: missed"])
        failing = [group for group in picture.findall(f"{SVG}g") if "failing" in group.get("class", "")]
        self.assertEqual([group.get("id") for group in failing], ["record-12.1.3"])
        self.assertIn("FAIL Load", "".join(failing[0].itertext()))
        self.assertIn("FAIL 12 LoadSource in cycle 12, hart 1, record 3", page)

    def test_asks_nothing_of_a_network(self) -> None:
        _, page = self.picture_of(IMAGE, FAILING)
        page = page.replace('xmlns="http://www.w3.org/2000/svg"', "")
        for word in ("http:", "https:", "//", "src=", "<link", "@import", "fetch(", "url(h"):
            self.assertNotIn(word, page, word)

    def test_arrows_are_the_notes(self) -> None:
        image, probes = (self.put(name, part) for name, part in zip(("image", "probes"), made_pair(4)))
        picture, _ = self.picture_of(image, probes, "--most", "100000")
        report = parse_report(second_answer(image, probes)[1])
        pairs = [(run.source, note.key) for note in report.notes for run in note.runs]
        wanted = {f"{source} to {key}: read" for source, key in pairs if isinstance(source, Key)}
        stores = {(key.hart, source.seq, str(key)) for source, key in pairs if isinstance(source, OwnStore)}
        found = self.arrows_in(picture)
        self.assertEqual({text for text in found if text.endswith("read")}, wanted)
        self.assertTrue(stores)
        forwarded = [re.match(r"\d+\.(\d+)\.(\d+) to (\S+): forwarded", text) for text in found]
        self.assertEqual({(int(m[1]), int(m[2]), m[3]) for m in forwarded if m}, stores)

    def test_window(self) -> None:
        picture, _ = self.picture_of(IMAGE, FAILING, "--from", "10", "--to", "12")
        self.assertEqual(len(picture.findall(f"{SVG}g")), 2)
        picture, page = self.picture_of(IMAGE, PASSING, "--from", "100")
        self.assertEqual(len(picture.findall(f"{SVG}g")), 0)

    def test_nothing_overlaps(self) -> None:
        """No two boxes overlap, and no arrow crosses a box."""
        for number in (4, 44, 28):
            image, probes = (
                self.put(name, part) for name, part in zip(("image", "probes"), made_pair(number))
            )
            report = parse_report(second_answer(image, probes)[1])
            rows = self.rows_of("probes")
            layout = lay_out(rows, max(key.hart for key, _ in rows) + 1)
            boxes = [(box.left, box.top) for box in layout.boxes.values()]
            for place, (left, top) in enumerate(boxes):
                for other_left, other_top in boxes[:place]:
                    apart = abs(left - other_left) >= BOX_WIDTH or abs(top - other_top) >= BOX_HEIGHT
                    self.assertTrue(apart)
            router = Router(layout)
            for arrow in arrows_of(report, dict(rows)):
                points = router.route(layout.boxes[arrow.source], layout.boxes[arrow.target])
                self.assert_free(points, boxes)

    def rows_of(self, name: str) -> List[Tuple[Key, Record]]:
        """The records of a file with their keys."""
        return list(keyed(self.records_of(name)))[:400]

    def assert_free(self, points: List[Tuple[int, int]], boxes: List[Tuple[int, int]]) -> None:
        """No part of an arrow lies inside a box."""
        for (x, y), (to_x, to_y) in zip(points, points[1:]):
            self.assertTrue(x == to_x or y == to_y)
            for left, top in boxes:
                beside = max(x, to_x) <= left or min(x, to_x) >= left + BOX_WIDTH
                above = max(y, to_y) <= top or min(y, to_y) >= top + BOX_HEIGHT
                self.assertTrue(beside or above, (points, left, top))

    def test_atomic(self) -> None:
        amo = asm.atomic("add", 8, 1, 5)
        words = [asm.upper(5, 0, True), amo, amo]
        rows: List[Record] = [
            Commit(0, 1, RAM, words[0], RAM),
            Atomic(0, 2, RAM + 4, amo, 0, RAM, 8, 1, 0),
            Atomic(0, 3, RAM + 8, amo, 5, RAM, 8, 1, 5),
        ]
        image, probes = self.put("image", words_of(*words)), self.put("probes", bytes_of(rows, 1))
        first = int.from_bytes(words_of(*words)[:8], "little")
        rows[1] = Atomic(0, 2, RAM + 4, amo, first, RAM, 8, 1, first)
        probes = self.put("probes", bytes_of(rows, 1))
        picture, page = self.picture_of(image, probes)
        self.assertIn("FAIL 16 AtomicValue in cycle 3", page)
        self.assertEqual(self.arrows_in(picture), ["2.0.1 to 3.0.2: missed"])

    def test_missed_write_is_shown_though_it_is_early(self) -> None:
        self.assertEqual(view.LATER_RECORDS, 12)
        picture, _ = self.picture_of(IMAGE, FAILING, "--from", "12")
        self.assertEqual(self.arrows_in(picture), ["10.0.5 to 12.1.3: missed"])


if __name__ == "__main__":
    unittest.main()
