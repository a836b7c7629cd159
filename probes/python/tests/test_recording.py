"""Programs on a real QEMU: a recording passes, a change of it fails there, and departures are named.

The programs are those of examples/programs, and small ones for the departures. All of it is skipped where
QEMU or the cross compiler is missing.
"""

from __future__ import annotations

import os
import re
import shutil
import subprocess
import sys
import time
import unittest
from dataclasses import replace
from typing import Dict, List, Optional, Tuple

from difftest_probes import Atomic, Commit, Csrs, Load, Record, Regs, Store, Trap, check, read
from difftest_probes.program import TOP
from difftest_probes.records import RETIRED, keyed
from difftest_probes.writer import write_file

from .support import CommandCase

QEMU, COMPILER = "qemu-system-riscv64", "riscv64-unknown-elf-gcc"
PROGRAMS = os.path.join(TOP, "examples", "programs")
MISSING = next((tool for tool in (QEMU, COMPILER, "make") if not shutil.which(tool)), None)
TARGET = ["-march=rv64imac_zicsr_zifencei", "-mabi=lp64", "-mcmodel=medany", "-nostdlib", "-static"]
LINK = ["-Wl,--no-relax", "-Wl,-Ttext=0x80000000", "-Wl,--build-id=none", "-Wl,--no-warn-rwx-segments"]

# The instructions before a departure, the instruction at the label `place` that departs, and what is said.
DEPARTURES: Dict[str, Tuple[str, str, str]] = {
    "misaligned": ("la t0, data", "lw t1, 1(t0)", "cause 4: QEMU runs misaligned accesses"),
    "medeleg": ("li t0, -1", "csrw medeleg, t0", "QEMU's medeleg is then .*; the profile's is b3ff"),
    "mepc": ("li t0, -1", "csrw mepc, t0", "QEMU's mepc is then f{16}; the profile's is f{15}e"),
    "register": ("nop", "csrw mcountinhibit, x0", "cause 2: QEMU has the instruction or the register"),
    "device": ("li t1, 0x10000000", "amoadd.w t1, t0, (t1)", "the profile has a trap of cause 7"),
    "accessed": (
        """la t1, table
        srli t1, t1, 12
        li t2, 8 << 60
        or t1, t1, t2
        csrw satp, t1
        sfence.vma
        la t0, place
        csrw mepc, t0
        li t0, 1 << 11
        csrw mstatus, t0
        mret""",
        "nop",
        "cause 12: QEMU sets the A and D bits",
    ),
}
# What stands behind each of them. The page of 80000000 has neither A nor D.
FRAME = """
    .globl _start
_start:
    {before}
    .globl place
place:
    {departing}
    j .
    .balign 8
data:
    .dword 0
    .balign 4096
table:
    .dword 0, 0, (0x80000000 >> 12 << 10) | 0x0f
    .zero 4096 - 24
"""

# A page of two megabytes at 40000000 is mapped elsewhere, with no SFENCE.VMA, and read again at `place`.
HELD = """
    .globl _start
_start:
    la t0, root
    la t1, middle
    srli t2, t1, 2
    ori t2, t2, 1
    sd t2, 8(t0)
    srli t0, t0, 12
    li t2, 8 << 60
    or t0, t0, t2
    csrw satp, t0
    sfence.vma
    la t0, supervisor
    csrw mepc, t0
    li t0, 1 << 11
    csrw mstatus, t0
    li t4, (0x80200000 >> 12 << 10) | 0xcf
    li t5, 0x40000000
    mret
supervisor:
    lw t6, 0(t5)
    sd t4, 0(t1)
    .globl place
place:
    lw t6, 0(t5)
    j .
    .balign 4096
root:
    .dword 0, 0, (0x80000000 >> 12 << 10) | 0xcf
    .zero 4096 - 24
middle:
    .dword (0x80000000 >> 12 << 10) | 0xcf
    .zero 4096 - 8
"""


@unittest.skipIf(MISSING, f"there is no {MISSING}")
class RecordingCase(CommandCase):
    """Programs that are built and recorded in a folder of the test."""

    def built(self, name: str, *changes: Tuple[str, str]) -> str:
        """The path of a program of examples/programs, with lines of it changed."""
        folder = self.path("programs")
        shutil.copytree(PROGRAMS, folder, dirs_exist_ok=True, ignore=shutil.ignore_patterns("out"))
        source = os.path.join(folder, f"{name}.c")
        with open(source, encoding="utf-8") as text:
            content = text.read()
        for old, new in changes:
            self.assertIn(old, content)
            content = content.replace(old, new)
        with open(source, "w", encoding="utf-8") as text:
            text.write(content)
        subprocess.run(["make", "-s", "-C", folder, f"out/{name}.elf"], check=True)
        return os.path.join(folder, "out", f"{name}.elf")

    def assembled(self, text: str) -> str:
        """The path of a program from its assembly."""
        source = self.put("program.S", text.encode())
        subprocess.run([COMPILER, *TARGET, *LINK, "-o", self.path("program.elf"), source], check=True)
        return self.path("program.elf")

    def recorded(self, elf: str, *words: str, status: int = 0) -> str:
        """Records a program into run.image and run.probes, and gives what was printed."""
        command = [sys.executable, "-m", "difftest_probes.recorder", *words]
        environment = {**os.environ, "PYTHONPATH": os.path.join(TOP, "probes", "python")}
        done = subprocess.run(
            [*command, elf, self.path("run.image"), self.path("run.probes")],
            stdout=subprocess.PIPE,
            stderr=subprocess.PIPE,
            env=environment,
            check=False,
        )
        self.said = done.stderr.decode()
        self.assertEqual(done.returncode, status, self.said + done.stdout.decode())
        return done.stdout.decode()

    def assert_passes(self) -> None:
        """The recording has to pass."""
        report = check(self.path("run.image"), self.path("run.probes"), program=self.program)
        self.assertEqual((report.verdict, report.failure), ("PASS", None))

    def assert_fails(self, number: int, record: Record, *wanted: object) -> None:
        """With one record changed the recording fails there, with this reason, expected and found."""
        file = read(self.path("run.probes"))
        records = list(file.records)
        records[number] = record
        with open(self.path("changed.probes"), "wb") as out:
            write_file(out, file.header, records)
        failure = check(self.path("run.image"), self.path("changed.probes"), program=self.program).failure
        assert failure is not None
        keys = [key for key, _ in keyed(records)]
        self.assertEqual((failure.key, *failure[1:]), (keys[number], *wanted))


class Examples(RecordingCase):
    """The programs of examples/programs, with one and two harts, and both ways to drain."""

    def runs(self, name: str, console: str, *harts: int) -> List[Record]:
        """Records each way and judges it; gives the records of the last."""
        elf = self.built(name)
        for number in harts:
            for drains in ("now", "late"):
                with self.subTest(name=name, harts=number, drains=drains):
                    words = ["--harts", str(number), "--drains", drains, "--regs", "50", "--seed", "7"]
                    said = self.recorded(elf, *words)
                    self.assertRegex(said, "hart 0 stored 1 to 100000: the program passed")
                    self.assertEqual(self.said.replace("\r", ""), console)
                    self.assert_passes()
        return list(read(self.path("run.probes")).records)

    def test_hello(self) -> None:
        records = self.runs("hello", "hello\n", 1, 2)
        stores = [record for record in records if isinstance(record, Store)]
        console = [record.value for record in stores if record.paddr == 0x10000000]
        self.assertEqual(bytes(console), b"hello\n")
        self.assertEqual((stores[-1].paddr, stores[-1].value), (0x100000, 1))
        self.assertTrue(any(isinstance(record, Regs) for record in records))
        self.assertTrue(any(isinstance(record, Csrs) for record in records))

    def test_spinlock(self) -> None:
        # Of one hart alone it would wait for the other for ever.
        records = self.runs("spinlock", "", 2)
        # Each of two harts takes the lock 20 times, and says once that it is ready.
        wrote = [record for record in records if isinstance(record, Atomic) and record.wrote]
        self.assertEqual([len([1 for record in wrote if record.hart == hart]) for hart in (0, 1)], [21, 21])

    def test_sv39(self) -> None:
        records = self.runs("sv39", "", 1, 2)
        traps = [record for record in records if isinstance(record, Trap)]
        self.assertEqual([(trap.hart, trap.cause, trap.tval) for trap in traps], [(0, 13, 0x40000000)])
        # Both loads of the window: from the page that the fault mapped, and from the one that came later.
        loads = [record for record in records if isinstance(record, Load)]
        window = [record for record in loads if record.value in (0x1111, 0x2222)]
        self.assertEqual([record.value for record in window], [0x1111, 0x2222])
        self.assertEqual(abs(window[0].paddr - window[1].paddr), 4096)

    def test_spinlock_of_one_hart(self) -> None:
        elf = self.built("spinlock")
        said = self.recorded(elf, "--steps", "1500")
        self.assertRegex(said, "1500 steps are done")
        self.assert_passes()
        self.assertEqual(sum(isinstance(record, RETIRED) for record in self.records_of("run.probes")), 1500)

    def test_a_seed_decides_the_run(self) -> None:
        elf = self.built("spinlock")
        runs = []
        for seed in ("1", "1", "2"):
            self.recorded(elf, "--harts", "2", "--seed", seed, "--drains", "late")
            runs.append(self.get("run.probes"))
        self.assertEqual(runs[0], runs[1])
        self.assertNotEqual(runs[0], runs[2])

    def test_stop(self) -> None:
        elf = self.built("hello")
        said = self.recorded(elf, "--stop", "main")
        place = re.search(r"hart 0 has come to ([0-9a-f]+)", said)
        assert place is not None
        last = self.records_of("run.probes")[-1]
        self.recorded(elf, "--stop", place.group(1))
        self.assertEqual(self.records_of("run.probes")[-1], last)
        self.recorded(elf, "--stop", "nowhere", status=2)
        self.assertIn("nowhere is no symbol", self.said)

    def test_a_signal_ends_the_run(self) -> None:
        # Of one hart alone the program never ends.
        elf = self.built("spinlock")
        command = [
            sys.executable,
            "-m",
            "difftest_probes.recorder",
            elf,
            self.path("run.image"),
            self.path("run.probes"),
        ]
        environment = {**os.environ, "PYTHONPATH": os.path.join(TOP, "probes", "python")}
        with subprocess.Popen(command, stdout=subprocess.PIPE, env=environment) as recorder:
            part = self.path(f"run.probes.{recorder.pid}.part")
            end = time.monotonic() + 60
            while time.monotonic() < end and not (os.path.exists(part) and os.path.getsize(part)):
                time.sleep(0.05)
            recorder.terminate()
            said = recorder.communicate()[0].decode()
        self.assertEqual(recorder.returncode, 0)
        self.assertIn("steps; interrupted", said)
        self.assert_passes()

    def test_harts_that_wait(self) -> None:
        elf = self.assembled("    .globl _start\n_start:\n    wfi\n    j _start\n")
        said = self.recorded(elf, "--harts", "3")
        self.assertIn("0 records of 0 steps; every hart waits in a WFI", said)


class Changed(RecordingCase):
    """One number of a recording changed: it fails there, for the reason that the number has."""

    def test_a_value(self) -> None:
        self.recorded(self.built("hello"))
        records = self.records_of("run.probes")
        # The last instruction that gave a register the address of the end.
        number = max(
            n for n, record in enumerate(records) if isinstance(record, Commit) and record.value == 0x100000
        )
        record = records[number]
        assert isinstance(record, Commit)
        self.assert_fails(number, replace(record, value=0x100001), 8, "Value", 0x100000, 0x100001)

    def test_what_an_sc_wrote(self) -> None:
        self.recorded(self.built("spinlock"), "--harts", "2")
        records = self.records_of("run.probes")
        number = min(n for n, record in enumerate(records) if isinstance(record, Atomic) and record.wrote)
        record = records[number]
        assert isinstance(record, Atomic)
        # The lock's word becomes 1.
        self.assertEqual(record.new, 1)
        self.assert_fails(number, replace(record, new=3), 17, "AtomicWrite", 1, 3)

    def test_a_load_from_the_page_that_is_mapped_elsewhere(self) -> None:
        self.recorded(self.built("sv39"))
        records = self.records_of("run.probes")
        number = min(
            n for n, record in enumerate(records) if isinstance(record, Load) and record.value == 0x2222
        )
        record = records[number]
        assert isinstance(record, Load)
        self.assert_fails(number, replace(record, value=0x2223), 12, "LoadSource", 0x2222, 0x2223)


class Departures(RecordingCase):
    """Where QEMU does what the profile does not allow."""

    def place(self, elf: str) -> Optional[str]:
        """The address of the label `place`, by the tools of the compiler."""
        names = subprocess.run([COMPILER[:-3] + "nm", elf], stdout=subprocess.PIPE, check=True)
        found = re.search(r"^0*([0-9a-f]+) T place$", names.stdout.decode(), re.MULTILINE)
        return found.group(1) if found else None

    def test_each(self) -> None:
        for name, (before, departing, words) in DEPARTURES.items():
            with self.subTest(name):
                elf = self.assembled(FRAME.format(before=before, departing=departing))
                said = self.recorded(elf, status=1)
                self.assertRegex(said, rf"hart 0 at {self.place(elf)}: .*{words}")
                # What was recorded up to there is good.
                self.assert_passes()

    def test_a_translation_that_qemu_holds(self) -> None:
        elf = self.assembled(HELD)
        said = self.recorded(elf, "--drains", "late", status=1)
        self.assertRegex(
            said, f"hart 0 at {self.place(elf)}: .*and 0 is at 80200000.*: it held a translation"
        )
        self.assert_passes()

    def test_a_program_that_ends_qemu(self) -> None:
        before = "li t0, 0x100000\n    li t1, 0x5555\n    addi t0, t0, -4"
        elf = self.assembled(FRAME.format(before=before, departing="sw t1, 4(t0)"))
        said = self.recorded(elf, status=1)
        self.assertIn("the stub", said)
        self.assert_passes()

    def test_a_file_that_is_no_program(self) -> None:
        self.recorded(self.put("text", b"hello"), status=2)
        self.assertIn("no ELF file", self.said)
        self.assertFalse(os.path.exists(self.path("run.probes")))


if __name__ == "__main__":
    unittest.main()
