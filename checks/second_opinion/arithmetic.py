"""Arithmetic of the instructions, over whole numbers below 2^64."""

WORD_MASK = (1 << 64) - 1


def unsigned(number, bits=64):
    """The number modulo 2^bits."""
    return number & ((1 << bits) - 1)


def signed(number, bits=64):
    """The number's low bits read as two's complement."""
    low = unsigned(number, bits)
    return low - (1 << bits) if low >> (bits - 1) else low


def sign_extend(number, bits):
    """The low bits, sign-extended to 64 bits."""
    return unsigned(signed(number, bits))


def extend(width, is_signed, raw):
    """The low `width` bytes, extended to 64 bits with or without their sign."""
    if is_signed:
        return sign_extend(raw, 8 * width)
    return unsigned(raw, 8 * width)


def divide(dividend, divisor):
    """Quotient towards zero and remainder with the sign of the dividend."""
    if divisor == 0:
        return -1, dividend
    quotient = abs(dividend) // abs(divisor)
    if (dividend < 0) != (divisor < 0):
        quotient = -quotient
    return quotient, dividend - quotient * divisor


def operate(operation, word, first, second):
    """The result of an arithmetic instruction; `word` is its 32-bit form."""
    bits = 32 if word else 64
    a, b = unsigned(first, bits), unsigned(second, bits)
    a_signed, b_signed = signed(a, bits), signed(b, bits)
    amount = b % bits
    results = {
        "ADD": lambda: a + b,
        "SUB": lambda: a - b,
        "SLL": lambda: a << amount,
        "SLT": lambda: int(a_signed < b_signed),
        "SLTU": lambda: int(a < b),
        "XOR": lambda: a ^ b,
        "SRL": lambda: a >> amount,
        "SRA": lambda: a_signed >> amount,
        "OR": lambda: a | b,
        "AND": lambda: a & b,
        "MUL": lambda: a * b,
        "MULH": lambda: a_signed * b_signed >> bits,
        "MULHSU": lambda: a_signed * b >> bits,
        "MULHU": lambda: a * b >> bits,
        "DIV": lambda: divide(a_signed, b_signed)[0],
        "DIVU": lambda: divide(a, b)[0],
        "REM": lambda: divide(a_signed, b_signed)[1],
        "REMU": lambda: divide(a, b)[1],
    }
    return sign_extend(results[operation](), bits)


def holds(condition, first, second):
    """Whether the condition of a branch holds."""
    a_signed, b_signed = signed(first), signed(second)
    return {
        "BEQ": first == second,
        "BNE": first != second,
        "BLT": a_signed < b_signed,
        "BGE": a_signed >= b_signed,
        "BLTU": first < second,
        "BGEU": first >= second,
    }[condition]


def atomic_result(operation, width, old, operand):
    """What an AMO writes: its low `width` bytes."""
    bits = 8 * width
    a, b = unsigned(old, bits), unsigned(operand, bits)
    a_signed, b_signed = signed(a, bits), signed(b, bits)
    result = {
        "SWAP": b,
        "ADD": a + b,
        "XOR": a ^ b,
        "AND": a & b,
        "OR": a | b,
        "MIN": min(a_signed, b_signed),
        "MAX": max(a_signed, b_signed),
        "MINU": min(a, b),
        "MAXU": max(a, b),
    }[operation]
    return unsigned(result, bits)
