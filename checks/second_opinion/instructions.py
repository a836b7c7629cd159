"""The 32-bit instructions: from the bits to a named form with its operands."""

from dataclasses import dataclass

from .arithmetic import sign_extend


@dataclass(frozen=True)
class Instruction:
    """A decoded instruction.  Fields that its form does not have stay unset."""

    form: str
    operation: str = ""
    word: bool = False
    rd: int = 0
    rs1: int = 0
    rs2: int = 0
    imm: int = 0
    width: int = 0
    signed: bool = False
    acquire: bool = False
    release: bool = False
    number: int = 0
    immediate: bool = False
    fence_mode: int = 0
    before: int = 0
    after: int = 0


BRANCHES = {0: "BEQ", 1: "BNE", 4: "BLT", 5: "BGE", 6: "BLTU", 7: "BGEU"}
LOADS = {
    0: (1, True),
    1: (2, True),
    2: (4, True),
    3: (8, True),
    4: (1, False),
    5: (2, False),
    6: (4, False),
}
STORES = {0: 1, 1: 2, 2: 4, 3: 8}
IMMEDIATE_OPERATIONS = {0: "ADD", 2: "SLT", 3: "SLTU", 4: "XOR", 6: "OR", 7: "AND"}
# The key is funct7 and funct3.
OPERATIONS = {
    (0x00, 0): "ADD",
    (0x00, 1): "SLL",
    (0x00, 2): "SLT",
    (0x00, 3): "SLTU",
    (0x00, 4): "XOR",
    (0x00, 5): "SRL",
    (0x00, 6): "OR",
    (0x00, 7): "AND",
    (0x20, 0): "SUB",
    (0x20, 5): "SRA",
    (0x01, 0): "MUL",
    (0x01, 1): "MULH",
    (0x01, 2): "MULHSU",
    (0x01, 3): "MULHU",
    (0x01, 4): "DIV",
    (0x01, 5): "DIVU",
    (0x01, 6): "REM",
    (0x01, 7): "REMU",
}
WORD_OPERATIONS = {
    (0x00, 0): "ADD",
    (0x00, 1): "SLL",
    (0x00, 5): "SRL",
    (0x20, 0): "SUB",
    (0x20, 5): "SRA",
    (0x01, 0): "MUL",
    (0x01, 4): "DIV",
    (0x01, 5): "DIVU",
    (0x01, 6): "REM",
    (0x01, 7): "REMU",
}
ATOMICS = {
    0b00001: "SWAP",
    0b00000: "ADD",
    0b00100: "XOR",
    0b01100: "AND",
    0b01000: "OR",
    0b10000: "MIN",
    0b10100: "MAX",
    0b11000: "MINU",
    0b11100: "MAXU",
}
CSR_OPERATIONS = {1: "write", 2: "set", 3: "clear"}
WHOLE_WORDS = {
    0x00000073: "ecall",
    0x00100073: "ebreak",
    0x10200073: "sret",
    0x30200073: "mret",
    0x10500073: "wfi",
}


def field(bits, high, low):
    """The bits from `high` down to `low`."""
    return bits >> low & (1 << (high - low + 1)) - 1


def immediate_i(bits):
    """The immediate of loads, JALR and arithmetic."""
    return sign_extend(field(bits, 31, 20), 12)


def immediate_s(bits):
    """The immediate of stores."""
    return sign_extend(field(bits, 31, 25) << 5 | field(bits, 11, 7), 12)


def immediate_b(bits):
    """The immediate of branches."""
    value = field(bits, 31, 31) << 12 | field(bits, 7, 7) << 11
    value |= field(bits, 30, 25) << 5 | field(bits, 11, 8) << 1
    return sign_extend(value, 13)


def immediate_u(bits):
    """The immediate of LUI and AUIPC."""
    return sign_extend(field(bits, 31, 12) << 12, 32)


def immediate_j(bits):
    """The immediate of JAL."""
    value = field(bits, 31, 31) << 20 | field(bits, 19, 12) << 12
    value |= field(bits, 20, 20) << 11 | field(bits, 30, 21) << 1
    return sign_extend(value, 21)


def decode(bits):
    """The instruction of 32 bits, or None where there is none."""
    decoder = DECODERS.get(field(bits, 6, 0))
    if decoder is None:
        return None
    registers = {
        "rd": field(bits, 11, 7),
        "rs1": field(bits, 19, 15),
        "rs2": field(bits, 24, 20),
    }
    return decoder(bits, field(bits, 14, 12), registers)


def decode_lui(bits, _, registers):
    """LUI."""
    return Instruction("lui", rd=registers["rd"], imm=immediate_u(bits))


def decode_auipc(bits, _, registers):
    """AUIPC."""
    return Instruction("auipc", rd=registers["rd"], imm=immediate_u(bits))


def decode_jal(bits, _, registers):
    """JAL."""
    return Instruction("jal", rd=registers["rd"], imm=immediate_j(bits))


def decode_jalr(bits, funct3, registers):
    """JALR."""
    if funct3 != 0:
        return None
    return Instruction(
        "jalr", rd=registers["rd"], rs1=registers["rs1"], imm=immediate_i(bits)
    )


def decode_branch(bits, funct3, registers):
    """The conditional branches."""
    if funct3 not in BRANCHES:
        return None
    return Instruction(
        "branch",
        BRANCHES[funct3],
        rs1=registers["rs1"],
        rs2=registers["rs2"],
        imm=immediate_b(bits),
    )


def decode_load(bits, funct3, registers):
    """The loads."""
    if funct3 not in LOADS:
        return None
    width, is_signed = LOADS[funct3]
    return Instruction(
        "load",
        rd=registers["rd"],
        rs1=registers["rs1"],
        imm=immediate_i(bits),
        width=width,
        signed=is_signed,
    )


def decode_store(bits, funct3, registers):
    """The stores."""
    if funct3 not in STORES:
        return None
    return Instruction(
        "store",
        rs1=registers["rs1"],
        rs2=registers["rs2"],
        imm=immediate_s(bits),
        width=STORES[funct3],
    )


def decode_with_immediate(bits, funct3, registers):
    """Arithmetic of a register and an immediate."""
    operation = IMMEDIATE_OPERATIONS.get(funct3)
    imm = immediate_i(bits)
    if operation is None:
        shifts = {(1, 0b000000): "SLL", (5, 0b000000): "SRL", (5, 0b010000): "SRA"}
        operation = shifts.get((funct3, field(bits, 31, 26)))
        imm = field(bits, 25, 20)
    return arithmetic_with(operation, False, imm, registers)


def decode_word_with_immediate(bits, funct3, registers):
    """Arithmetic of the low half of a register and an immediate."""
    if funct3 == 0:
        return arithmetic_with("ADD", True, immediate_i(bits), registers)
    shifts = {(1, 0x00): "SLL", (5, 0x00): "SRL", (5, 0x20): "SRA"}
    operation = shifts.get((funct3, field(bits, 31, 25)))
    return arithmetic_with(operation, True, field(bits, 24, 20), registers)


def arithmetic_with(operation, word, imm, registers):
    """The arithmetic form with an immediate, or None without an operation."""
    if operation is None:
        return None
    return Instruction(
        "arithmetic immediate",
        operation,
        word,
        rd=registers["rd"],
        rs1=registers["rs1"],
        imm=imm,
    )


def decode_operation(bits, funct3, registers):
    """Arithmetic of two registers."""
    operation = OPERATIONS.get((field(bits, 31, 25), funct3))
    return operation and Instruction("arithmetic", operation, **registers)


def decode_word_operation(bits, funct3, registers):
    """Arithmetic of the low halves of two registers."""
    operation = WORD_OPERATIONS.get((field(bits, 31, 25), funct3))
    return operation and Instruction("arithmetic", operation, True, **registers)


def decode_fence(bits, funct3, _):
    """FENCE and FENCE.I."""
    if funct3 == 1:
        return Instruction("fence_i")
    if funct3 != 0:
        return None
    return Instruction(
        "fence",
        fence_mode=field(bits, 31, 28),
        before=field(bits, 27, 24),
        after=field(bits, 23, 20),
    )


def decode_atomic(bits, funct3, registers):
    """LR, SC and the AMOs."""
    if funct3 not in (2, 3):
        return None
    form, operation = "amo", ATOMICS.get(field(bits, 31, 27), "")
    if field(bits, 31, 27) == 0b00010 and registers["rs2"] == 0:
        form = "lr"
    elif field(bits, 31, 27) == 0b00011:
        form = "sc"
    elif not operation:
        return None
    return Instruction(
        form,
        operation,
        width=4 if funct3 == 2 else 8,
        signed=True,
        acquire=bool(field(bits, 26, 26)),
        release=bool(field(bits, 25, 25)),
        **registers,
    )


def decode_system(bits, funct3, registers):
    """The accesses of control registers and the privileged instructions."""
    if funct3 & 3:
        return Instruction(
            "csr",
            CSR_OPERATIONS[funct3 & 3],
            rd=registers["rd"],
            rs1=registers["rs1"],
            number=field(bits, 31, 20),
            immediate=bool(funct3 & 4),
        )
    if bits in WHOLE_WORDS:
        return Instruction(WHOLE_WORDS[bits])
    if funct3 == 0 and field(bits, 31, 25) == 0b0001001 and registers["rd"] == 0:
        return Instruction("sfence_vma", **registers)
    return None


DECODERS = {
    0b0110111: decode_lui,
    0b0010111: decode_auipc,
    0b1101111: decode_jal,
    0b1100111: decode_jalr,
    0b1100011: decode_branch,
    0b0000011: decode_load,
    0b0100011: decode_store,
    0b0010011: decode_with_immediate,
    0b0011011: decode_word_with_immediate,
    0b0110011: decode_operation,
    0b0111011: decode_word_operation,
    0b0001111: decode_fence,
    0b0101111: decode_atomic,
    0b1110011: decode_system,
}
