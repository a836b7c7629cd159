"""Meaning of the 32-bit instruction words."""

from __future__ import annotations

from dataclasses import dataclass
from typing import Callable, Dict, Optional

from .fields import sign_extend


@dataclass(frozen=True)
class Instruction:
    """One decoded instruction. Fields that its group doesn't use stay at their default."""

    group: str
    op: str = ""
    rd: int = 0
    rs1: int = 0
    rs2: int = 0
    imm: int = 0
    width: int = 0
    signed: bool = False
    word: bool = False
    aq: bool = False
    rl: bool = False
    number: int = 0


# The fields of a word that many rows use, by name.
Fields = Dict[str, int]

CONDITIONS = {0: "eq", 1: "ne", 4: "lt", 5: "ge", 6: "ltu", 7: "geu"}
LOADS = {0: (1, True), 1: (2, True), 2: (4, True), 3: (8, True), 4: (1, False), 5: (2, False), 6: (4, False)}
IMMEDIATE_OPERATIONS = {0: "add", 2: "slt", 3: "sltu", 4: "xor", 6: "or", 7: "and"}
PLAIN_OPERATIONS = {0: "add", 1: "sll", 2: "slt", 3: "sltu", 4: "xor", 5: "srl", 6: "or", 7: "and"}
PRODUCT_OPERATIONS = {0: "mul", 1: "mulh", 2: "mulhsu", 3: "mulhu", 4: "div", 5: "divu", 6: "rem", 7: "remu"}
ATOMIC_OPERATIONS = {
    0: "add",
    1: "swap",
    4: "xor",
    8: "or",
    12: "and",
    16: "min",
    20: "max",
    24: "minu",
    28: "maxu",
}
WHOLE_WORDS = {
    0x00000073: "ecall",
    0x00100073: "ebreak",
    0x10200073: "sret",
    0x30200073: "mret",
    0x10500073: "wfi",
}


def _branch(bits: int, f: Fields) -> Optional[Instruction]:
    condition = CONDITIONS.get(f["funct3"])
    if condition is None:
        return None
    imm = (bits >> 31) << 12 | (bits >> 7 & 1) << 11 | (bits >> 25 & 0x3F) << 5 | (bits >> 8 & 0xF) << 1
    return Instruction("branch", condition, rs1=f["rs1"], rs2=f["rs2"], imm=sign_extend(imm, 13))


def _jal(bits: int, f: Fields) -> Optional[Instruction]:
    imm = (bits >> 31) << 20 | (bits >> 12 & 0xFF) << 12 | (bits >> 20 & 1) << 11 | (bits >> 21 & 0x3FF) << 1
    return Instruction("jal", rd=f["rd"], imm=sign_extend(imm, 21))


def _jalr(bits: int, f: Fields) -> Optional[Instruction]:
    if f["funct3"] != 0:
        return None
    return Instruction("jalr", rd=f["rd"], rs1=f["rs1"], imm=sign_extend(bits >> 20, 12))


def _load(bits: int, f: Fields) -> Optional[Instruction]:
    shape = LOADS.get(f["funct3"])
    if shape is None:
        return None
    return Instruction(
        "load", rd=f["rd"], rs1=f["rs1"], imm=sign_extend(bits >> 20, 12), width=shape[0], signed=shape[1]
    )


def _store(bits: int, f: Fields) -> Optional[Instruction]:
    if f["funct3"] > 3:
        return None
    imm = (bits >> 25) << 5 | f["rd"]
    return Instruction("store", rs1=f["rs1"], rs2=f["rs2"], imm=sign_extend(imm, 12), width=1 << f["funct3"])


def _immediate(bits: int, f: Fields) -> Optional[Instruction]:
    word = f["opcode"] == 0x1B
    operation = IMMEDIATE_OPERATIONS.get(f["funct3"])
    imm = sign_extend(bits >> 20, 12)
    if operation is None:
        size = 5 if word else 6
        high = bits >> (20 + size)
        imm = bits >> 20 & ((1 << size) - 1)
        arithmetic = 0x400 >> size
        if f["funct3"] == 1 and high == 0:
            operation = "sll"
        elif f["funct3"] == 5 and high == 0:
            operation = "srl"
        elif f["funct3"] == 5 and high == arithmetic:
            operation = "sra"
        else:
            return None
    elif word and operation != "add":
        return None
    return Instruction("immediate", operation, rd=f["rd"], rs1=f["rs1"], imm=imm, word=word)


def _register(bits: int, f: Fields) -> Optional[Instruction]:
    word = f["opcode"] == 0x3B
    funct3, funct7 = f["funct3"], bits >> 25
    operation: Optional[str] = None
    if funct7 == 0:
        operation = PLAIN_OPERATIONS[funct3]
    elif funct7 == 0x20:
        operation = {0: "sub", 5: "sra"}.get(funct3)
    elif funct7 == 1:
        operation = PRODUCT_OPERATIONS[funct3]
    if word and operation not in ("add", "sub", "sll", "srl", "sra", "mul", "div", "divu", "rem", "remu"):
        return None
    if operation is None:
        return None
    return Instruction("register", operation, rd=f["rd"], rs1=f["rs1"], rs2=f["rs2"], word=word)


def _fence(bits: int, f: Fields) -> Optional[Instruction]:
    if f["funct3"] == 0:
        return Instruction("fence", imm=bits >> 28, rs1=bits >> 24 & 15, rs2=bits >> 20 & 15)
    return Instruction("fence_i") if f["funct3"] == 1 else None


def _atomic(bits: int, f: Fields) -> Optional[Instruction]:
    if f["funct3"] not in (2, 3):
        return None
    code = bits >> 27
    operation = {2: "lr", 3: "sc"}.get(code) or ATOMIC_OPERATIONS.get(code)
    if operation is None or operation == "lr" and f["rs2"]:
        return None
    return Instruction(
        "atomic",
        operation,
        rd=f["rd"],
        rs1=f["rs1"],
        rs2=f["rs2"],
        width=1 << f["funct3"],
        aq=bool(bits >> 26 & 1),
        rl=bool(bits >> 25 & 1),
    )


def _system(bits: int, f: Fields) -> Optional[Instruction]:
    funct3 = f["funct3"]
    if funct3 == 0:
        if bits in WHOLE_WORDS:
            return Instruction(WHOLE_WORDS[bits])
        if bits >> 25 == 9 and f["rd"] == 0:
            return Instruction("sfence", rs1=f["rs1"], rs2=f["rs2"])
        return None
    if funct3 == 4:
        return None
    operation = {1: "write", 2: "set", 3: "clear"}[funct3 & 3]
    return Instruction("csr", operation, rd=f["rd"], rs1=f["rs1"], number=bits >> 20, word=funct3 > 4)


def _upper(bits: int, f: Fields) -> Optional[Instruction]:
    group = "lui" if f["opcode"] == 0x37 else "auipc"
    return Instruction(group, rd=f["rd"], imm=sign_extend(bits & 0xFFFFF000, 32))


_ROWS: Dict[int, Callable[[int, Fields], Optional[Instruction]]] = {
    0x37: _upper,
    0x17: _upper,
    0x6F: _jal,
    0x67: _jalr,
    0x63: _branch,
    0x03: _load,
    0x23: _store,
    0x13: _immediate,
    0x1B: _immediate,
    0x33: _register,
    0x3B: _register,
    0x0F: _fence,
    0x2F: _atomic,
    0x73: _system,
}


def decode(bits: int) -> Optional[Instruction]:
    """The instruction of a 32-bit word, or None where it has no meaning."""
    row = _ROWS.get(bits & 0x7F)
    if row is None:
        return None
    return row(
        bits,
        {
            "opcode": bits & 0x7F,
            "rd": bits >> 7 & 31,
            "funct3": bits >> 12 & 7,
            "rs1": bits >> 15 & 31,
            "rs2": bits >> 20 & 31,
        },
    )
