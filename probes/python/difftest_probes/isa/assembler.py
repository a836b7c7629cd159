"""Encoders of instruction words, by their shapes."""

from __future__ import annotations

PLAIN = {
    "add": (0, 0),
    "sub": (0, 0x20),
    "sll": (1, 0),
    "slt": (2, 0),
    "sltu": (3, 0),
    "xor": (4, 0),
    "srl": (5, 0),
    "sra": (5, 0x20),
    "or": (6, 0),
    "and": (7, 0),
    "mul": (0, 1),
    "mulh": (1, 1),
    "mulhsu": (2, 1),
    "mulhu": (3, 1),
    "div": (4, 1),
    "divu": (5, 1),
    "rem": (6, 1),
    "remu": (7, 1),
}
WORD_FORMS = ("add", "sub", "sll", "srl", "sra", "mul", "div", "divu", "rem", "remu")
BRANCHES = {"eq": 0, "ne": 1, "lt": 4, "ge": 5, "ltu": 6, "geu": 7}
ATOMICS = {
    "add": 0,
    "swap": 1,
    "lr": 2,
    "sc": 3,
    "xor": 4,
    "or": 8,
    "and": 12,
    "min": 16,
    "max": 20,
    "minu": 24,
    "maxu": 28,
}
AQ, RL = 2, 1
CSR_FORMS = {"write": 1, "set": 2, "clear": 3}

ECALL, EBREAK, SRET, MRET, WFI = 0x73, 0x100073, 0x10200073, 0x30200073, 0x10500073


def register_form(operation: str, rd: int, rs1: int, rs2: int, word: bool = False) -> int:
    """An operation on two registers."""
    funct3, funct7 = PLAIN[operation]
    return funct7 << 25 | rs2 << 20 | rs1 << 15 | funct3 << 12 | rd << 7 | (0x3B if word else 0x33)


def immediate_form(opcode: int, funct3: int, rd: int, rs1: int, imm: int) -> int:
    """An instruction with a signed 12-bit immediate in its upper bits."""
    return (imm & 0xFFF) << 20 | rs1 << 15 | funct3 << 12 | rd << 7 | opcode


def addi(rd: int, rs1: int, imm: int, word: bool = False) -> int:
    """ADDI, or ADDIW."""
    return immediate_form(0x1B if word else 0x13, 0, rd, rs1, imm)


def shift(name: str, rd: int, rs1: int, amount: int, word: bool = False) -> int:
    """A shift by a constant amount."""
    funct3 = 1 if name == "sll" else 5
    high = 0x400 if name == "sra" else 0
    return immediate_form(0x1B if word else 0x13, funct3, rd, rs1, high | amount)


def load(width: int, is_signed: bool, rd: int, rs1: int, imm: int) -> int:
    """A load; the 8-byte form has one sign only."""
    funct3 = {1: 0, 2: 1, 4: 2, 8: 3}[width] + (0 if is_signed or width == 8 else 4)
    return immediate_form(0x03, funct3, rd, rs1, imm)


def store(width: int, rs2: int, rs1: int, imm: int) -> int:
    """A store."""
    funct3 = {1: 0, 2: 1, 4: 2, 8: 3}[width]
    return (imm >> 5 & 0x7F) << 25 | rs2 << 20 | rs1 << 15 | funct3 << 12 | (imm & 31) << 7 | 0x23


def branch(condition: str, rs1: int, rs2: int, imm: int) -> int:
    """A branch; the immediate is even."""
    return (
        (imm >> 12 & 1) << 31
        | (imm >> 5 & 0x3F) << 25
        | rs2 << 20
        | rs1 << 15
        | BRANCHES[condition] << 12
        | (imm >> 1 & 15) << 8
        | (imm >> 11 & 1) << 7
        | 0x63
    )


def jal(rd: int, imm: int) -> int:
    """A jump; the immediate is even."""
    return (
        (imm >> 20 & 1) << 31
        | (imm >> 1 & 0x3FF) << 21
        | (imm >> 11 & 1) << 20
        | (imm >> 12 & 0xFF) << 12
        | rd << 7
        | 0x6F
    )


def upper(rd: int, imm20: int, relative: bool) -> int:
    """AUIPC where `relative` is set, else LUI."""
    return (imm20 & 0xFFFFF) << 12 | rd << 7 | (0x17 if relative else 0x37)


def fence(fm: int, before: int, after: int) -> int:
    """FENCE with its mode and its two sets of four bits."""
    return fm << 28 | before << 24 | after << 20 | 0x0F


def atomic(operation: str, width: int, rd: int, rs1: int, rs2: int = 0, ordering: int = 0) -> int:
    """LR, SC or an atomic operation; the ordering is made of AQ and RL."""
    size = 2 if width == 4 else 3
    return ATOMICS[operation] << 27 | ordering << 25 | rs2 << 20 | rs1 << 15 | size << 12 | rd << 7 | 0x2F


def csr(form: str, number: int, rd: int, source: int, immediate: bool = False) -> int:
    """A CSR instruction; `source` is a register or the small constant."""
    funct3 = CSR_FORMS[form] + (4 if immediate else 0)
    return number << 20 | source << 15 | funct3 << 12 | rd << 7 | 0x73


def sfence_vma(rs1: int, rs2: int) -> int:
    """SFENCE.VMA."""
    return 9 << 25 | rs2 << 20 | rs1 << 15 | 0x73


FENCE_I = 0x100F
