"""The text and the image of a random program.

Two harts run phases in M, S and U mode, with and without Sv39, over memory of their own and over a few
lines that they share. The assembler of Debian's gcc-riscv64-unknown-elf makes the image; frame.S in this
folder has what every program stands on.
"""

import os
import random
import subprocess
import tempfile
from pathlib import Path

from .blocks import (
    MACHINE,
    PAGE_A,
    PAGE_B,
    SHARED_PAGE,
    SUPERVISOR,
    SUPERVISOR_FINE_ROOT,
    SUPERVISOR_ROOT,
    USER,
    USER_FINE_ROOT,
    USER_ROOT,
    Writer,
    body,
)

FOLDER = Path(__file__).resolve().parent
LINKER_SCRIPT = FOLDER / "layout.ld"
TARGET = ["-march=rv64imac_zicsr_zifencei", "-mabi=lp64", "-mcmodel=medany", "-mno-relax"]
LINK = ["-nostdlib", "-static", "-Wl,--no-relax", "-Wl,--no-warn-rwx-segments", "-Wl,--build-id=none"]

CROSS = os.environ.get("CROSS", "riscv64-unknown-elf-")

HARTS = 2
WINDOW_ENTRIES = 8
NEVER = 1 << 40

# Fields of mstatus.
MPIE = 1 << 7
SIE = 1 << 1
MPRV, SUM, MXR, TVM, TW, TSR = (1 << place for place in range(17, 23))
SV39 = 8 << 60

ROOTS = {
    USER: [USER_ROOT, USER_FINE_ROOT],
    SUPERVISOR: [SUPERVISOR_ROOT, SUPERVISOR_FINE_ROOT],
    MACHINE: [SUPERVISOR_ROOT, USER_ROOT],
}
# The end of a phase comes to M mode in two steps at most: an ECALL from S is never delegated.
DELEGABLE = 0xB1FF


def satp_of(draw: random.Random, mode: int) -> int:
    """The value of satp for a phase: no translation, or Sv39 by one of the frame's tables."""
    if draw.random() < 0.25:
        return 0
    return SV39 | draw.choice(ROOTS[mode]) >> 12


def mstatus_of(draw: random.Random, mode: int) -> int:
    """The value of mstatus with which a phase is entered by MRET."""
    value = mode << 11
    for bit, chance in ((MPIE, 0.7), (SIE, 0.7), (SUM, 0.4), (MXR, 0.3), (TVM, 0.1), (TW, 0.1), (TSR, 0.1)):
        if draw.random() < chance:
            value |= bit
    if mode == MACHINE and draw.random() < 0.3:
        value |= MPRV
    return value


def phase(draw: random.Random, label: str, mode: int) -> list[str]:
    """The description of a phase, as frame.S reads it."""
    mstatus = mstatus_of(draw, mode)
    # With TSR the handler of S mode could not return, so everything goes to M mode.
    delegable = 0 if mstatus & TSR else -1
    timer = draw.choice([NEVER, draw.randrange(20, 900)])
    supervisor_timer = draw.choice([NEVER, draw.randrange(20, 900)])
    numbers = [
        label,
        hex(mstatus),
        hex(satp_of(draw, mode)),
        hex(draw.getrandbits(16) & DELEGABLE & delegable),
        hex(draw.getrandbits(12) & 0x222 & delegable),
        hex(draw.getrandbits(12) & 0xAAA),
        hex(draw.getrandbits(3)),
        hex(draw.getrandbits(3)),
        str(timer),
        str(supervisor_timer),
    ]
    return [f"    .dword {number}" for number in numbers]


def window_entry(draw: random.Random) -> int:
    """An entry of the window's last table: mostly a page, sometimes one of the ways to fault."""
    flags = draw.choice([0xDF, 0xCF, 0xD7, 0xC7, 0xDB, 0x5F, 0x9F, 0xD3, 0x01, 0xC5, 0x00])
    place = draw.choice([PAGE_A, PAGE_B, PAGE_A, SHARED_PAGE])
    if draw.random() < 0.1:
        return 0x10000000 | flags
    if draw.random() < 0.05:
        return 1 << 60 | place >> 2 | flags
    return place >> 2 | flags


def program(seed: int) -> str:
    """The text of a program beside its frame."""
    draw = random.Random(seed)
    code = ["    .text"]
    data = ["    .data", "    .balign 8", "    .globl phase_lists", "phase_lists:"]
    data += [f"    .dword phases_{hart}" for hart in range(HARTS)]
    for hart in range(HARTS):
        data.append(f"phases_{hart}:")
        for number in range(draw.randrange(2, 4)):
            label = f"phase_{hart}_{number}"
            mode = draw.choice([MACHINE, SUPERVISOR, SUPERVISOR, USER, USER])
            data += phase(draw, label, mode)
            writer = Writer(draw, label, hart, mode)
            body(writer, draw.randrange(8, 28))
            code += writer.lines
        data.append("    .dword 0")
        data += ["    .balign 4096", f"private_{hart}:"]
        data += [f"    .dword {draw.getrandbits(64)}" for _ in range(32)]
        data.append("    .zero 4096 - 256")
    data += ["    .section .window, \"aw\""]
    data += [f"    .dword {window_entry(draw):#x}" for _ in range(WINDOW_ENTRIES)]
    return "\n".join(code + data) + "\n"


def build(text: str, image: Path, cross: str = CROSS) -> None:
    """Assembles a program with its frame, and writes its image."""
    with tempfile.TemporaryDirectory() as folder:
        source = Path(folder) / "program.S"
        linked = Path(folder) / "program.elf"
        source.write_text(text, encoding="ascii")
        frame = str(FOLDER / "frame.S")
        command = [f"{cross}gcc", *TARGET, *LINK, "-T", str(LINKER_SCRIPT), "-o", str(linked), frame, str(source)]
        subprocess.run(command, check=True)
        subprocess.run([f"{cross}objcopy", "-O", "binary", str(linked), str(image)], check=True)
