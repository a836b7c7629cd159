"""Images and probe files of the benchmark: long lawful runs of small loops, written record by record.

A run is an image, the number of its harts and its records as bytes. Records stand in the order of
their keys, so that what a load reads is what memory holds when its record is written.
"""
import struct

from probe_files import RAM
from difftest_probes.isa import assembler as asm

AUIPC_X5 = 0x00000297

COMMIT = struct.Struct("<BBQQIQ").pack
LOAD = struct.Struct("<BBQQIQQQ").pack
STORE = struct.Struct("<BBQQIQQ").pack
ATOMIC = struct.Struct("<BBQQIQQBBQ").pack
DRAIN = struct.Struct("<BBQQQH64s").pack


def words_of(instructions):
    return b"".join(struct.pack("<I", bits) for bits in instructions)


def one_double(paddr, value):
    """The mask and the bytes of a line into which a double is drained."""
    place = paddr & 63
    return 0xFF << place, bytes(place) + struct.pack("<Q", value) + bytes(56 - place)


def additions(count):
    """One hart adds 1 to a register and jumps back, without memory."""
    add, jump = asm.addi(7, 7, 1), asm.jal(0, -4)

    def records():
        for number in range(count):
            if number % 2:
                yield COMMIT(1, 0, number, RAM + 4, jump, 0)
            else:
                yield COMMIT(1, 0, number, RAM, add, number // 2 + 1)

    return words_of([add, jump]), 1, records()


def stores_and_loads(turns):
    """One hart stores a number to one word, drains it and loads it, again and again."""
    code = [AUIPC_X5, asm.addi(7, 7, 1), asm.store(8, 7, 5, 256), asm.load(8, True, 8, 5, 256), asm.jal(0, -12)]
    word = RAM + 256

    def records():
        yield COMMIT(1, 0, 1, RAM, code[0], RAM)
        for turn in range(1, turns + 1):
            stamp = 5 * turn - 3
            yield COMMIT(1, 0, stamp, RAM + 4, code[1], turn)
            yield STORE(6, 0, stamp + 1, RAM + 8, code[2], word, turn)
            yield DRAIN(8, 0, stamp + 2, word, *one_line(word, turn))
            yield LOAD(5, 0, stamp + 3, RAM + 12, code[3], turn, stamp + 3, word)
            yield COMMIT(1, 0, stamp + 4, RAM + 16, code[4], 0)

    return words_of(code), 1, records()


def one_line(paddr, value):
    """Mask, count and bytes of a drain of one double."""
    mask, content = one_double(paddr, value)
    return mask, 1, content


def lines_of_their_own(lines):
    """One hart loads a double of each line of RAM and stores it there again, each store with a drain of
    its own, 32 lines a turn; loads of the last of them fill each turn up to 128 records."""
    setup = [AUIPC_X5, asm.addi(5, 5, -1024), asm.addi(6, 0, 1), asm.shift("sll", 6, 6, 11)]
    step = asm.register_form("add", 5, 5, 6)
    pairs = [(asm.load(8, True, 7, 5, 64 * i - 1024), asm.store(8, 7, 5, 64 * i - 1024)) for i in range(32)]
    again = asm.load(8, True, 8, 5, 64 * 31 - 1024)
    code = setup + [step] + [bits for pair in pairs for bits in pair] + [again] * 30
    code.append(asm.jal(0, 4 * (len(setup) - len(code))))
    image = words_of(code)
    first_pair, first_again = RAM + 4 * (len(setup) + 1), RAM + 4 * (len(setup) + 1 + 64)

    def turn(number, stamp):
        base = RAM - 1024 + 2048 * (number + 1)
        yield COMMIT(1, 0, stamp, RAM + 4 * len(setup), step, base)
        for place, (load, store) in enumerate(pairs):
            paddr, pc = base + 64 * place - 1024, first_pair + 8 * place
            held = image[paddr - RAM:paddr - RAM + 8].ljust(8, b"\0")
            value = struct.unpack("<Q", held)[0]
            stamp += 1
            yield LOAD(5, 0, stamp, pc, load, value, stamp, paddr)
            yield STORE(6, 0, stamp, pc + 4, store, paddr, value)
            yield DRAIN(8, 0, stamp, paddr, 0xFF, 1, held + bytes(56))
        for place in range(30):
            yield LOAD(5, 0, stamp, first_again + 4 * place, again, value, stamp, paddr)
        yield COMMIT(1, 0, stamp, RAM + 4 * (len(code) - 1), code[-1], 0)

    def records():
        for place, value in enumerate((RAM, RAM - 1024, 1, 2048)):
            yield COMMIT(1, 0, 0, RAM + 4 * place, setup[place], value)
        for number in range(lines // 32):
            yield from turn(number, 32 * number)

    return image, 1, records()


def whole_lines(lines):
    """One hart fills lines with eight doubles each, which are drained as one, 64 lines a turn."""
    setup = [AUIPC_X5, asm.upper(6, 1, False), asm.upper(9, 16, False), asm.register_form("add", 5, 5, 9), asm.addi(7, 0, 7)]
    step = asm.register_form("add", 5, 5, 6)
    stores = [asm.store(8, 7, 5, 8 * place - 2048) for place in range(512)]
    code = setup + [step] + stores
    code.append(asm.jal(0, 4 * (len(setup) - len(code))))
    sevens = struct.pack("<8Q", *[7] * 8)

    def turn(base, count, stamp):
        """A turn whose last lines are left out where fewer than 64 are left."""
        yield COMMIT(1, 0, stamp, RAM + 4 * len(setup), step, base)
        for line in range(count):
            for place in range(8 * line, 8 * line + 8):
                pc = RAM + 4 * (len(setup) + 1 + place)
                yield STORE(6, 0, stamp + line, pc, stores[place], base + 8 * place - 2048, 7)
            yield DRAIN(8, 0, stamp + line, base + 64 * line - 2048, 2 ** 64 - 1, 8, sevens)
        if count == 64:
            yield COMMIT(1, 0, stamp + 63, RAM + 4 * (len(code) - 1), code[-1], 0)

    def records():
        for place, value in enumerate((RAM, 0x1000, 0x1_0000, RAM + 0x1_0000, 7)):
            yield COMMIT(1, 0, 0, RAM + 4 * place, setup[place], value)
        for first in range(0, lines, 64):
            base = RAM + 0x1_0000 + 64 * first + 0x1000
            yield from turn(base, min(64, lines - first), first)

    return words_of(code), 1, records()
