"""Programs that keep changing the entries of a few pages while they use these pages."""

from difftest_probes.isa import assembler as asm
from difftest_probes.isa.fields import SUPERVISOR
from difftest_probes.isa.walking import A, D, R, U, V, W, X
from .page_tables import leaf
from .scripts import (CHUNK_REGISTER, CODE_START, DATA_START, HANDLERS, constant,
                      lower_mode, pointer, skip_and_return)

# Registers with a fixed use: the first changed entry, the pages, the values of entries.
ENTRIES, PAGES = 20, (21, 28, 29)
CODE_ENTRIES, VALUES = (18, 19), (22, 23, 24, 25, 26, 27)
FREE = (6, 7, 8, 9, 10, 11)


def _values(random):
    """Entries for the data page or a page of zeros, some of them with a bit missing."""
    zeros = 0x80006000
    choices = [DATA_START >> 2 | V | R | W | X | A | D, zeros >> 2 | V | R | W | A | D,
               DATA_START >> 2 | V | R | A, DATA_START >> 2 | V | R | W | A | D | U,
               DATA_START >> 2 | V | X | A, zeros >> 2 | V | R | W | D, V | R | W | A | D, 0,
               leaf(random, zeros, False), 0x84000000 >> 2 | V | R | W | A | D]
    return choices[:1] + random.sample(choices[1:], len(VALUES) - 1)


def boot(weaver, state):
    """Sets the registers, turns translation on and goes to supervisor mode."""
    random = weaver.random
    words = pointer(state, 5, HANDLERS[0]) + [asm.csr("write", 0x305, 0, 5)]
    words += constant(PAGES[0], DATA_START)
    words += [asm.upper(6, 1, False), asm.register_form("add", PAGES[1], PAGES[0], 6),
              asm.register_form("add", PAGES[2], PAGES[1], 6),
              asm.register_form("add", ENTRIES, PAGES[2], 6), asm.addi(ENTRIES, ENTRIES, 16)]
    code = CODE_START >> 2 | V | R | W | X | A | D
    for register, value in zip(VALUES + CODE_ENTRIES,
                               _values(random) + [code, code ^ random.choice((X, A, V))]):
        words += constant(register, value)
    words += weaver.switch_on(6)
    if random.random() < 0.3:
        words += constant(6, random.choice((1 << 18, 1 << 19, 3 << 18)))
        words += [asm.csr("set", 0x300, 0, 6)]
    return words + lower_mode(state, 6, SUPERVISOR, CODE_START + 0x100)


def handler(weaver, state):
    """Puts the code page right and goes on after the trapping instruction."""
    return ([asm.store(8, CODE_ENTRIES[0], ENTRIES, -16)]
            + skip_and_return(CHUNK_REGISTER, state.mode == SUPERVISOR, 4))


def remap(weaver, state):
    """Stores another entry for one of the pages, now and then for the code page."""
    random = weaver.random
    if random.random() < 0.08:
        return [asm.store(8, random.choice(CODE_ENTRIES), ENTRIES, -16)]
    return [asm.store(8, random.choice(VALUES), ENTRIES, 8 * random.choice((0, 0, 1, 2)))]


def touch(weaver, state):
    """A load, store or atomic in one of the pages."""
    random = weaver.random
    page, rd = random.choice((PAGES[0],) + PAGES), random.choice(FREE)
    width = random.choice((1, 4, 8))
    offset = random.randrange(64) & -width
    sort = random.random()
    if sort < 0.6:
        return [asm.load(width, True, rd, page, offset)]
    if sort < 0.85:
        return [asm.store(width, rd, page, offset)]
    return [asm.atomic(random.choice(("add", "swap", "lr")), 8, rd, page, 0)]


def flush(weaver, state):
    """SFENCE.VMA for all pages, for one of them, or with an operand that covers none."""
    random = weaver.random
    page = random.choice((PAGES[0],) + PAGES)
    return [random.choice((asm.sfence_vma(0, 0), asm.sfence_vma(page, 0), asm.sfence_vma(page, 0),
                           asm.sfence_vma(page, 6), asm.sfence_vma(0, 6)))]
