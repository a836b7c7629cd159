"""Short runs of instruction words that do one thing, such as making a constant."""

from difftest_probes.isa import assembler as asm
from difftest_probes.isa.fields import RAM_START, signed, wrap

# The image: main code, handlers, chunks of code that handlers go to in turn, data, tables.
CODE_START = RAM_START
CHUNKS_START = RAM_START + 0x800
HANDLERS = tuple(RAM_START + 0x500 + 0x80 * n for n in range(6))
DATA_START = RAM_START + 0x2000
ROOT_TABLE, MIDDLE_TABLE, LEAF_TABLE = (RAM_START + 0x1000 * n for n in (3, 4, 5))
IMAGE_LIMIT = RAM_START + 0x6000
# In files with Sv48 the image goes on with a page of zeros, and the table above the root.
TOP_TABLE = RAM_START + 0x7000
WIDE_LIMIT = RAM_START + 0x8000

# Registers that keep the address of the next chunk, and the upper bits of all code addresses.
CHUNK_REGISTER, CODE_REGISTER = 31, 30
CODE_SHIFT = 13


def constant(rd, value):
    """Words that put a constant into a register."""
    number = signed(wrap(value))
    if -2048 <= number < 2048:
        return [asm.addi(rd, 0, number)]
    if -(1 << 31) <= number < (1 << 31) - 0x800:
        high = (number + 0x800) >> 12
        words = [asm.upper(rd, high, False)]
        low = number - (high << 12)
        return words + ([asm.addi(rd, rd, low, word=True)] if low else [])
    low = ((number & 0xFFF) ^ 0x800) - 0x800
    rest = (number - low) >> 12
    amount = 12
    while rest % 2 == 0:
        rest //= 2
        amount += 1
    words = constant(rd, rest) + [asm.shift("sll", rd, rd, amount)]
    return words + ([asm.addi(rd, rd, low)] if low else [])


def near(state, rd, target):
    """Words, a base register and an offset that together reach the target address."""
    for register in range(1, 32):
        distance = signed(wrap(target - state.x[register]))
        if -2048 <= distance < 2048:
            return [], register, distance
    distance = signed(wrap(target - state.pc))
    if -(1 << 31) <= distance < (1 << 31) - 0x800:
        high = (distance + 0x800) >> 12
        return [asm.upper(rd, high, True)], rd, distance - (high << 12)
    return constant(rd, target), rd, 0


def pointer(state, rd, target):
    """Words that put an address into a register, counted from the present pc."""
    words, register, offset = near(state, rd, target)
    if words and not offset and register == rd:
        return words
    return words + [asm.addi(rd, register, offset)]


def lower_mode(state, rd, mode, target):
    """Words that go from machine mode to another mode at the target."""
    words = pointer(state, rd, target)
    words.append(asm.csr("write", 0x341, 0, rd))
    words += constant(rd, 3 << 11) + [asm.csr("clear", 0x300, 0, rd)]
    if mode:
        words += constant(rd, mode << 11) + [asm.csr("set", 0x300, 0, rd)]
    return words + [asm.MRET]


def next_chunk(rd, supervisor, step):
    """A trap handler that goes on after the trapping instruction, or in the next chunk of code
    where the trap came from outside the code."""
    number = 0x141 if supervisor else 0x341
    back = asm.SRET if supervisor else asm.MRET
    return [asm.csr("set", number, rd, 0), asm.shift("srl", rd + 1, rd, CODE_SHIFT),
            asm.branch("ne", rd + 1, CODE_REGISTER, 16), asm.addi(rd, rd, step),
            asm.csr("write", number, 0, rd), back,
            asm.addi(CHUNK_REGISTER, CHUNK_REGISTER, 256),
            asm.csr("write", number, 0, CHUNK_REGISTER), back]


def skip_and_return(rd, supervisor, step):
    """A trap handler that goes on after the trapping instruction."""
    number = 0x141 if supervisor else 0x341
    return [asm.csr("set", number, rd, 0), asm.addi(rd, rd, step),
            asm.csr("write", number, 0, rd), asm.SRET if supervisor else asm.MRET]


def return_to_machine(rd):
    """A trap handler that goes on after the trapping instruction, but in machine mode."""
    words = skip_and_return(rd, False, 4)
    return words[:-1] + constant(rd, 3 << 11) + [asm.csr("set", 0x300, 0, rd), asm.MRET]
