"""Instructions as assembly, by GNU objdump for RISC-V where there is one."""

from __future__ import annotations

import os
import re
import shutil
import subprocess
import tempfile
from typing import Dict, Iterable, Optional, Tuple

from .isa.compressed import meaning_of
from .isa.fields import wrap
from .isa.names import mnemonic

OBJDUMPS = ("riscv64-unknown-elf-objdump", "riscv64-linux-gnu-objdump", "riscv64-elf-objdump")
# Each instruction has a room of its own, since an unknown one may be taken for a longer one.
ROOM = 32
_NOP = b"\x01\x00"
_LINE = re.compile(r"^\s*([0-9a-f]+):\s+[0-9a-f ]+\t(.*)$")

Place = Tuple[int, int]


def find_objdump() -> Optional[str]:
    """The path of an objdump for RISC-V, if there is one."""
    named = os.environ.get("DIFFTEST_OBJDUMP")
    return named or next((name for name in OBJDUMPS if shutil.which(name)), None)


def _own_text(pc: int, bits: int) -> str:
    """What can be said without objdump: the name, and where a jump goes."""
    instruction = meaning_of(bits)
    if instruction is None:
        return "no instruction of the profile"
    if instruction.group in ("jal", "branch"):
        return f"{mnemonic(instruction)} 0x{wrap(pc + instruction.imm):x}"
    return mnemonic(instruction)


def _room(bits: int) -> bytes:
    spelled = bits.to_bytes(4 if bits & 3 == 3 else 2, "little")
    return (spelled + _NOP * ROOM)[:ROOM]


def _dumped(objdump: str, codes: Iterable[int]) -> Dict[int, str]:
    """The text of each of these instructions; that of a jump lacks its target."""
    listed = list(dict.fromkeys(codes))
    with tempfile.NamedTemporaryFile(suffix=".bin") as file:
        file.write(b"".join(_room(bits) for bits in listed))
        file.flush()
        words = [objdump, "-D", "-z", "-b", "binary", "-m", "riscv:rv64", "-M", "numeric", file.name]
        done = subprocess.run(words, stdout=subprocess.PIPE, stderr=subprocess.DEVNULL, check=False)
    found = {}
    for line in done.stdout.decode("latin-1").split("\n"):
        match = _LINE.match(line)
        if match and int(match.group(1), 16) % ROOM == 0:
            bits = listed[int(match.group(1), 16) // ROOM]
            found[bits] = _plain(bits, match.group(2))
    return found


def _plain(bits: int, text: str) -> str:
    """The text in one line without remarks; the target of a jump goes, as it is that of the place."""
    text = re.sub(r"\s*#.*$", "", text).replace("\t", " ").strip()
    if text.startswith("."):
        return f".word 0x{bits:08x}" if bits & 3 == 3 else f".half 0x{bits:04x}"
    instruction = meaning_of(bits)
    if instruction and instruction.group in ("jal", "branch"):
        text = re.sub(r"(0x)?[0-9a-f]+( <.*>)?$", "", text)
    return text


def disassemble(places: Iterable[Place]) -> Dict[Place, str]:
    """The assembly of instructions, each given by its pc and its bits."""
    wanted = list(dict.fromkeys(places))
    objdump = find_objdump()
    texts = _dumped(objdump, (bits for _, bits in wanted)) if objdump and wanted else {}
    answer = {}
    for pc, bits in wanted:
        instruction = meaning_of(bits)
        text = texts.get(bits) or _own_text(pc, bits)
        if bits in texts and instruction and instruction.group in ("jal", "branch"):
            text = f"{text}0x{wrap(pc + instruction.imm):x}"
        answer[pc, bits] = text
    return answer
