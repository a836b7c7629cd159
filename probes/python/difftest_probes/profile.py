"""What lies outside the profile that difftest judges: instructions, and registers of control and status."""

from __future__ import annotations

from typing import Dict, NamedTuple, Optional, Tuple

from .isa import csrs
from .isa.compressed import meaning_of
from .isa.decoding import Instruction

# Registers that many cores have and the profile has not: first number, last number, name.
_OUTSIDE: Tuple[Tuple[int, int, str], ...] = (
    (0x001, 0x003, "fflags, frm, fcsr: floats"),
    (0x008, 0x00F, "vectors"),
    (0x015, 0x015, "seed"),
    (0x10A, 0x10A, "senvcfg"),
    (0x120, 0x120, "scountinhibit"),
    (0x14D, 0x14D, "stimecmp"),
    (0x200, 0x2FF, "hypervisor"),
    (0x30A, 0x30A, "menvcfg"),
    (0x310, 0x310, "mstatush, which RV64 has not"),
    (0x320, 0x320, "mcountinhibit"),
    (0x323, 0x33F, "mhpmevent"),
    (0x34A, 0x34B, "hypervisor"),
    (0x3A0, 0x3AF, "pmpcfg: PMP"),
    (0x3B0, 0x3EF, "pmpaddr: PMP"),
    (0x600, 0x6FF, "hypervisor"),
    (0x740, 0x744, "resumable NMI"),
    (0x747, 0x747, "mseccfg"),
    (0x7A0, 0x7AF, "triggers"),
    (0x7B0, 0x7BF, "debugging"),
    (0xA00, 0xAFF, "hypervisor"),
    (0xB03, 0xB1F, "mhpmcounter"),
    (0xC03, 0xC1F, "hpmcounter"),
    (0xC20, 0xC22, "vectors"),
)
_OPCODES: Dict[int, str] = {
    0x07: "a load of floats or vectors",
    0x27: "a store of floats or vectors",
    0x43: "floats",
    0x47: "floats",
    0x4B: "floats",
    0x4F: "floats",
    0x53: "floats",
    0x57: "vectors",
    0x0B: "a custom opcode",
    0x2B: "a custom opcode",
    0x5B: "a custom opcode",
    0x7B: "a custom opcode",
    0x13: "a form of an extension such as Zbb",
    0x1B: "a form of an extension such as Zbb",
    0x33: "a form of an extension such as Zba",
    0x3B: "a form of an extension such as Zba",
    0x0F: "a form of an extension such as Zicbom",
    0x2F: "an atomic of an extension such as Zacas",
    0x73: "a form of an extension such as the hypervisor's",
}
# The quadrant and the top three bits of the 16-bit float forms.
_SHORT_FLOATS = ((0, 1), (0, 5), (2, 1), (2, 5))


class Finding(NamedTuple):
    """What is to be said of an instruction. A fault is outside the profile; else it is worth a look."""

    is_fault: bool
    text: str


def register_name(number: int) -> str:
    """The name of a register of control and status, in the profile or outside it."""
    if number in csrs.NUMBERS:
        return csrs.NUMBERS[number]
    inside = {
        0x301: "misa",
        csrs.MHARTID: "mhartid",
        0xF11: "mvendorid",
        0xF12: "marchid",
        0xF13: "mimpid",
        0xF15: "mconfigptr",
        csrs.SSTATUS: "sstatus",
        csrs.SIE: "sie",
        csrs.SIP: "sip",
        csrs.MIP: "mip",
        0xB00: "mcycle",
        0xB02: "minstret",
        0xC00: "cycle",
        0xC01: "time",
        0xC02: "instret",
    }
    if number in inside:
        return inside[number]
    return next((name for first, last, name in _OUTSIDE if first <= number <= last), "unknown")


def _without_meaning(bits: int) -> Finding:
    if bits & 3 == 3:
        what = _OPCODES.get(bits & 0x7F, "an opcode that the profile has not")
    elif (bits & 3, bits >> 13 & 7) in _SHORT_FLOATS:
        what = "floats"
    else:
        what = "a 16-bit form that the profile has not"
    return Finding(True, f"not in the profile: {what}; it has to raise cause 2")


def _of_register(instruction: Instruction) -> Optional[Finding]:
    number = instruction.number
    name = f"register {number:03x} ({register_name(number)})"
    writes = instruction.op == "write" or instruction.rs1 != 0
    if number not in csrs.ALL_NUMBERS:
        return Finding(True, f"{name} is not in the profile: an access has to raise cause 2")
    if writes and number >> 10 == 3:
        return Finding(True, f"{name} is read-only: a write has to raise cause 2")
    if number in csrs.FIXED_VALUES and instruction.rd:
        return Finding(False, f"{name} reads as {csrs.FIXED_VALUES[number]:016x} in the profile")
    return None


def finding_of(bits: int) -> Optional[Finding]:
    """What is to be said of an instruction, if anything is."""
    instruction = meaning_of(bits)
    if instruction is None:
        return _without_meaning(bits)
    return _of_register(instruction) if instruction.group == "csr" else None
