"""The two made images: one of random words, one of a lock loop under translation."""

from difftest_probes.isa import assembler as asm
from .draws import Draws

ARITHMETIC = ("add", "sub", "sll", "slt", "sltu", "xor", "srl", "sra", "or", "and",
              "mul", "mulh", "mulhsu", "mulhu", "div", "divu", "rem", "remu")


def _random_word(draw):
    rd = 1 + (draw >> 8) % 28
    rs1, rs2 = (draw >> 16) % 32, (draw >> 24) % 32
    offset, u = 8 * ((draw >> 32) % 64), draw >> 40
    choice = draw % 16
    if choice < 6:
        return asm.register_form(ARITHMETIC[u % 18], rd, rs1, rs2)
    if choice < 8:
        return asm.addi(rd, rs1, u % 4096 - 2048)
    if choice < 11:
        return asm.load(8, True, rd, 30, offset)
    if choice < 13:
        return asm.store(8, rs2, 30, offset)
    if choice == 13:
        return asm.atomic("add", 8, rd, 30, rs2)
    if choice == 14:
        if u % 2 == 0:
            return asm.atomic("lr", 8, rd, 30)
        return asm.atomic("sc", 8, rd, 30, rs2)
    return asm.fence(0, 3, 3)


def random_image(seed):
    """A loop of 1,024 words that the seed fixes."""
    draws = Draws(seed)
    words = [asm.upper(30, 0x10, True)]
    words.extend(_random_word(draws.draw()) for _ in range(1022))
    words.append(asm.jal(0, -4 * 1022))
    return b"".join(word.to_bytes(4, "little") for word in words)


def _spin_words():
    setup = [
        asm.upper(5, 0, True), asm.addi(6, 5, 256), asm.csr("write", 0x305, 0, 6),
        asm.addi(7, 0, 128), asm.csr("write", 0x304, 0, 7), asm.addi(8, 0, 1),
        asm.shift("sll", 8, 8, 63), asm.shift("srl", 9, 5, 12), asm.addi(9, 9, 2),
        asm.register_form("or", 8, 8, 9), asm.csr("write", 0x180, 0, 8), asm.sfence_vma(0, 0),
        asm.addi(10, 0, 1), asm.shift("sll", 10, 10, 11), asm.csr("set", 0x300, 0, 10),
        asm.addi(11, 5, 128), asm.csr("write", 0x341, 0, 11), asm.upper(12, 3, False),
        asm.register_form("add", 12, 12, 5), asm.addi(13, 0, 1), asm.MRET]
    loop = [
        asm.atomic("swap", 4, 14, 12, 13, asm.AQ), asm.branch("ne", 14, 0, -4),
        asm.load(8, True, 15, 12, 64), asm.addi(15, 15, 1), asm.store(8, 15, 12, 64),
        asm.fence(0, 3, 1), asm.store(4, 0, 12, 0), asm.jal(0, -28)]
    handler = [asm.csr("set", 0xB00, 16, 0), asm.MRET]
    return {0x00: setup, 0x80: loop, 0x100: handler}


def spin_image():
    """Harts that take a lock, count and release it, with timer interrupts."""
    image = bytearray(12288)
    for start, words in _spin_words().items():
        for place, word in enumerate(words):
            image[start + 4 * place:start + 4 * place + 4] = word.to_bytes(4, "little")
    image[0x2010:0x2018] = (0x200000CF).to_bytes(8, "little")
    return bytes(image)
