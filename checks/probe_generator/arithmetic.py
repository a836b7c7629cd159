"""Values of the arithmetic, comparing and atomic operations."""

from difftest_probes.isa.fields import sign_extend, signed, wrap


def extend(width, is_signed, raw):
    """The low `width` bytes of a word, extended to 64 bits."""
    bits = 8 * width
    raw &= (1 << bits) - 1
    return sign_extend(raw, bits) if is_signed else raw


def _quotient(a, b):
    """Signed division that rounds toward zero; the divisor isn't zero."""
    size = abs(a) // abs(b)
    return -size if (a < 0) != (b < 0) else size


def _divide(operation, a, b, bits):
    """The division family on words of `bits` bits, low bits of the answer."""
    mask = (1 << bits) - 1
    a &= mask
    b &= mask
    if operation in ("div", "rem"):
        a = signed(sign_extend(a, bits))
        b = signed(sign_extend(b, bits))
    if b == 0:
        return mask if operation in ("div", "divu") else a & mask
    quotient = _quotient(a, b)
    return (quotient if operation in ("div", "divu") else a - b * quotient) & mask


_SIMPLE = {
    "add": lambda a, b: a + b,
    "sub": lambda a, b: a - b,
    "sll": lambda a, b: a << (b & 63),
    "slt": lambda a, b: int(signed(a) < signed(b)),
    "sltu": lambda a, b: int(a < b),
    "xor": lambda a, b: a ^ b,
    "srl": lambda a, b: a >> (b & 63),
    "sra": lambda a, b: signed(a) >> (b & 63),
    "or": lambda a, b: a | b,
    "and": lambda a, b: a & b,
    "mul": lambda a, b: a * b,
    "mulh": lambda a, b: (signed(a) * signed(b)) >> 64,
    "mulhsu": lambda a, b: (signed(a) * b) >> 64,
    "mulhu": lambda a, b: (a * b) >> 64,
}

_WORD = {
    "add": lambda a, b: a + b,
    "sub": lambda a, b: a - b,
    "mul": lambda a, b: a * b,
    "sll": lambda a, b: a << (b & 31),
    "srl": lambda a, b: (a & 0xFFFFFFFF) >> (b & 31),
    "sra": lambda a, b: signed(sign_extend(a, 32)) >> (b & 31),
}


def alu(operation, word, a, b):
    """The value of one register operation; `word` chooses its 32-bit form."""
    if operation in ("div", "divu", "rem", "remu"):
        if word:
            return sign_extend(_divide(operation, a, b, 32), 32)
        return _divide(operation, a, b, 64)
    if word:
        return sign_extend(_WORD[operation](a, b), 32)
    return wrap(_SIMPLE[operation](a, b))


def compare(condition, a, b):
    """Whether a branch of this condition is taken."""
    if condition in ("lt", "ge"):
        a, b = signed(a), signed(b)
    if condition in ("eq", "ne"):
        answer = a == b
    else:
        answer = a < b
    return answer if condition in ("eq", "lt", "ltu") else not answer


def amo(operation, width, old, operand):
    """What an atomic operation writes: its low `width` bytes."""
    bits = 8 * width
    mask = (1 << bits) - 1
    old &= mask
    operand &= mask
    if operation == "swap":
        return operand
    if operation == "add":
        return (old + operand) & mask
    if operation in ("xor", "and", "or"):
        return _SIMPLE[operation](old, operand)
    if operation in ("min", "max"):
        first, second = signed(sign_extend(old, bits)), signed(sign_extend(operand, bits))
    else:
        first, second = old, operand
    smaller = first <= second
    return old if smaller == (operation in ("min", "minu")) else operand
