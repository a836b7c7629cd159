"""Images of ELF files: a small one that is made here, and one of the compiler where there is one."""

from __future__ import annotations

import shutil
import struct
import subprocess
import unittest
from typing import List, Tuple

from difftest_probes import ElfError, image_of_elf
from difftest_probes.elf import image_of, read_elf

from .support import FolderCase

COMPILER = "riscv64-unknown-elf-gcc"
SOURCE = """
.globl _start
_start: li x1, 5
loop:   sd x1, 8(x2)
        j loop
.data
word:   .dword 0x1122334455667788
.bss
room:   .space 64
"""


def small_elf(segments: List[Tuple[int, bytes, int]], machine: int = 243) -> bytes:
    """An ELF file of segments, each with its address, its content, and its size in memory."""
    start = 64 + 56 * len(segments)
    head = struct.pack("<4sBBB9x", b"\x7fELF", 2, 1, 1)
    head += struct.pack(
        "<HHIQQQIHHHHHH", 2, machine, 1, 0x80000000, 64, 0, 0, 64, 56, len(segments), 64, 0, 0
    )
    table, contents = b"", b""
    for address, content, size in segments:
        place = start + len(contents)
        table += struct.pack("<IIQQQQQQ", 1, 7, place, address, address, len(content), size, 1)
        contents += content
    return head + table + contents


class Images(FolderCase):
    """The bytes of RAM that an ELF file gives."""

    def image(self, *segments: Tuple[int, bytes, int]) -> bytes:
        """The image of an ELF file of these segments."""
        return image_of_elf(self.put("elf", small_elf(list(segments))))

    def test_segments_in_any_order(self) -> None:
        found = self.image((0x80000010, b"later", 5), (0x80000000, b"first", 64))
        self.assertEqual(found, b"first" + bytes(11) + b"later")

    def test_zeros_at_the_end_are_left_out(self) -> None:
        self.assertEqual(self.image((0x80000000, b"a\0\0\0", 4), (0x80001000, bytes(9), 9)), b"a")
        self.assertEqual(self.image((0x80001000, b"", 4096)), b"")

    def test_refusals(self) -> None:
        for segment in ((0x1000, b"rom", 3), (0x83FFFFFE, b"over", 4), (0x81000000, b"far", 3)):
            with self.assertRaises(ElfError):
                self.image(segment)
        whole = small_elf([(0x80000000, b"abc", 3)])
        for data in (b"text", whole[:-1], whole[:70], small_elf([], machine=62)):
            with self.assertRaises(ElfError):
                image_of_elf(self.put("elf", data))

    @unittest.skipUnless(shutil.which(COMPILER), f"there is no {COMPILER}")
    def test_compiled(self) -> None:
        source, out = self.put("start.S", SOURCE.encode()), self.path("out.elf")
        flags = [
            "-march=rv64imac_zicsr",
            "-mabi=lp64",
            "-nostdlib",
            "-Wl,-Ttext=0x80000000,-Tdata=0x80001000",
        ]
        subprocess.run([COMPILER, *flags, source, "-o", out], check=True, stderr=subprocess.DEVNULL)
        raw = self.path("out.raw")
        copy = ["riscv64-unknown-elf-objcopy", "-O", "binary", out, raw]
        subprocess.run(copy, check=True)
        self.assertEqual(image_of_elf(out), self.get("out.raw").rstrip(b"\0"))
        with open(out, "rb") as stream:
            elf = read_elf(stream.read())
        self.assertEqual((elf.entry, elf.place_of(0x80000006)), (0x80000000, "loop+0x4"))
        self.assertEqual([(section.name, section.address) for section in elf.code], [(".text", 0x80000000)])
        self.assertEqual(image_of(elf)[0x1000:], bytes.fromhex("8877665544332211"))


if __name__ == "__main__":
    unittest.main()
