"""The 16-bit instructions: each means what some 32-bit instruction means."""

from .arithmetic import sign_extend
from .instructions import Instruction, field

STACK = 2
LINK = 1


def gather(half, top, *places):
    """An immediate whose listed bits stand in the instruction from `top` down."""
    value = 0
    for distance, place in enumerate(places):
        value |= field(half, top - distance, top - distance) << place
    return value


def small(half, low):
    """A register of x8 to x15, named by three bits."""
    return 8 + field(half, low + 2, low)


def six_bits(half):
    """The immediate with its top bit in 12 and the rest in 6:2."""
    return gather(half, 12, 5) | field(half, 6, 2)


def decode_short(half):
    """The instruction of 16 bits, or None where there is none."""
    quadrants = {0: decode_quadrant_0, 1: decode_quadrant_1, 2: decode_quadrant_2}
    decoder = quadrants.get(half & 3)
    return decoder(half, field(half, 15, 13)) if decoder else None


def add_immediate(rd, rs1, imm, word=False):
    """ADDI or ADDIW."""
    return Instruction("arithmetic immediate", "ADD", word, rd=rd, rs1=rs1, imm=imm)


def load(width, rd, rs1, imm):
    """LW or LD."""
    return Instruction("load", rd=rd, rs1=rs1, imm=imm, width=width, signed=True)


def store(width, rs1, rs2, imm):
    """SW or SD."""
    return Instruction("store", rs1=rs1, rs2=rs2, imm=imm, width=width)


def decode_quadrant_0(half, funct3):
    """Stack addresses, and loads and stores through a small register."""
    other, base = small(half, 2), small(half, 7)
    if funct3 == 0b000:
        imm = gather(half, 12, 5, 4, 9, 8, 7, 6, 2, 3)
        return add_immediate(other, STACK, imm) if imm else None
    word_offset = gather(half, 12, 5, 4, 3) | gather(half, 6, 2, 6)
    double_offset = gather(half, 12, 5, 4, 3) | gather(half, 6, 7, 6)
    forms = {
        0b010: lambda: load(4, other, base, word_offset),
        0b110: lambda: store(4, base, other, word_offset),
        0b011: lambda: load(8, other, base, double_offset),
        0b111: lambda: store(8, base, other, double_offset),
    }
    return forms[funct3]() if funct3 in forms else None


def decode_quadrant_1(half, funct3):
    """Arithmetic with immediates, jumps and branches."""
    rd = field(half, 11, 7)
    imm = sign_extend(six_bits(half), 6)
    if funct3 == 0b000:
        return add_immediate(rd, rd, imm)
    if funct3 == 0b001:
        return add_immediate(rd, rd, imm, word=True) if rd else None
    if funct3 == 0b010:
        return add_immediate(rd, 0, imm)
    if funct3 == 0b011:
        return decode_upper(half, rd)
    if funct3 == 0b100:
        return decode_small_arithmetic(half)
    if funct3 == 0b101:
        places = (11, 4, 9, 8, 10, 6, 7, 3, 2, 1, 5)
        return Instruction("jal", rd=0, imm=sign_extend(gather(half, 12, *places), 12))
    offset = gather(half, 12, 8, 4, 3) | gather(half, 6, 7, 6, 2, 1, 5)
    condition = "BEQ" if funct3 == 0b110 else "BNE"
    return Instruction(
        "branch", condition, rs1=small(half, 7), rs2=0, imm=sign_extend(offset, 9)
    )


def decode_upper(half, rd):
    """The large step of the stack pointer, and LUI."""
    if rd == STACK:
        imm = sign_extend(gather(half, 12, 9) | gather(half, 6, 4, 6, 8, 7, 5), 10)
        return add_immediate(STACK, STACK, imm) if imm else None
    imm = sign_extend(gather(half, 12, 17) | field(half, 6, 2) << 12, 18)
    return Instruction("lui", rd=rd, imm=imm) if imm else None


def decode_small_arithmetic(half):
    """Arithmetic on the small registers."""
    rd = small(half, 7)
    choice = field(half, 11, 10)
    if choice < 2:
        operation = ("SRL", "SRA")[choice]
        amount = six_bits(half)
        return Instruction(
            "arithmetic immediate", operation, rd=rd, rs1=rd, imm=amount
        )
    if choice == 2:
        imm = sign_extend(six_bits(half), 6)
        return Instruction("arithmetic immediate", "AND", rd=rd, rs1=rd, imm=imm)
    word = bool(field(half, 12, 12))
    names = ("SUB", "ADD") if word else ("SUB", "XOR", "OR", "AND")
    which = field(half, 6, 5)
    if which >= len(names):
        return None
    return Instruction(
        "arithmetic", names[which], word, rd=rd, rs1=rd, rs2=small(half, 2)
    )


def decode_quadrant_2(half, funct3):
    """Shifts, accesses through the stack pointer, moves and register jumps."""
    rd, rs2 = field(half, 11, 7), field(half, 6, 2)
    if funct3 == 0b000:
        amount = six_bits(half)
        return Instruction("arithmetic immediate", "SLL", rd=rd, rs1=rd, imm=amount)
    if funct3 == 0b010 and rd:
        return load(4, rd, STACK, gather(half, 12, 5) | gather(half, 6, 4, 3, 2, 7, 6))
    if funct3 == 0b011 and rd:
        return load(8, rd, STACK, gather(half, 12, 5) | gather(half, 6, 4, 3, 8, 7, 6))
    if funct3 == 0b100:
        return decode_register_form(half, rd, rs2)
    if funct3 == 0b110:
        return store(4, STACK, rs2, gather(half, 12, 5, 4, 3, 2, 7, 6))
    if funct3 == 0b111:
        return store(8, STACK, rs2, gather(half, 12, 5, 4, 3, 8, 7, 6))
    return None


def decode_register_form(half, rd, rs2):
    """Register jumps, moves, additions and the breakpoint."""
    adds = bool(field(half, 12, 12))
    if rs2:
        return Instruction("arithmetic", "ADD", rd=rd, rs1=rd if adds else 0, rs2=rs2)
    if rd:
        return Instruction("jalr", rd=LINK if adds else 0, rs1=rd, imm=0)
    return Instruction("ebreak") if adds else None
