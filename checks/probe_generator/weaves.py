"""The sorts of instructions that a weaver can choose, each as a short run of words."""

from difftest_probes.isa import assembler as asm
from difftest_probes.isa import csrs as control
from difftest_probes.isa.fields import MACHINE, SUPERVISOR
from . import remapping
from .page_tables import entry_for
from .scripts import HANDLERS, LEAF_TABLE, ROOT_TABLE, constant, lower_mode, pointer

VECTORS = {0x305, 0x105, 0x341, 0x141}
SMALL_CONSTANTS = (0, 1, 2, 3, 7, 8, 0x222, 0xAAA, 0xB3FF, 0x1800, 0x800, 0x1000, 0x7E19AA)


def arithmetic(weaver, state):
    """A register or immediate operation, or an address or upper constant."""
    random = weaver.random
    rd, rs1, rs2 = weaver.any_register(), weaver.any_register(), weaver.any_register()
    sort = random.randrange(10)
    if sort < 6:
        word = random.random() < 0.4
        names = asm.WORD_FORMS if word else tuple(asm.PLAIN)
        return [asm.register_form(random.choice(names), rd, rs1, rs2, word)]
    if sort < 8:
        funct3 = random.choice((0, 2, 3, 4, 6, 7))
        word = funct3 == 0 and random.random() < 0.5
        return [asm.immediate_form(0x1B if word else 0x13, funct3, rd, rs1,
                                   random.getrandbits(12))]
    if sort < 9:
        word = random.random() < 0.5
        return [asm.shift(random.choice(("sll", "srl", "sra")), rd, rs1,
                          random.randrange(32 if word else 64), word)]
    return [asm.upper(rd, random.getrandbits(20), random.random() < 0.5)]


def compressed(weaver, state):
    """One 16-bit instruction, sometimes after x2 was made a useful address."""
    random = weaver.random
    words = []
    if random.random() < 0.1:
        words = pointer(state, 2, weaver.target(8))
    elif random.random() < 0.15:
        words = pointer(state, random.randrange(8, 16), weaver.target(8))
    return words + [weaver.compressed()]


def constant_word(weaver, state):
    """A constant: small, an edge of the numbers, or random."""
    random = weaver.random
    value = random.choice((random.getrandbits(64), random.getrandbits(32), -1, 1 << 63,
                           (1 << 63) - 1, 1 << 31, random.choice(SMALL_CONSTANTS)))
    return constant(weaver.any_register(), value)


def load(weaver, state):
    """A load of any width and sign."""
    random = weaver.random
    width = random.choice((1, 2, 4, 8, 8))
    words, base, offset = weaver.reach(state, weaver.target(width))
    rd = 0 if random.random() < 0.05 else weaver.register()
    return words + [asm.load(width, random.random() < 0.5, rd, base, offset)]


def store(weaver, state):
    """A store of any width."""
    width = weaver.random.choice((1, 2, 4, 8, 8))
    words, base, offset = weaver.reach(state, weaver.target(width))
    return words + [asm.store(width, weaver.any_register(), base, offset)]


def atomic(weaver, state):
    """LR, SC, LR then SC, or an atomic operation."""
    random = weaver.random
    width = random.choice((4, 8))
    base = weaver.register()
    words = pointer(state, base, weaver.target(width))
    rd = weaver.any_register()
    aq, rl = (bit * (random.random() < 0.25) for bit in (asm.AQ, asm.RL))
    sort = random.random()
    if sort < 0.25:
        return words + [asm.atomic("lr", width, rd, base, 0, aq | rl)]
    if sort < 0.45:
        return words + [asm.atomic("sc", width, rd, base, weaver.any_register(), aq | rl)]
    if sort < 0.65:
        between = load(weaver, state)[-1:] if random.random() < 0.3 else []
        return (words + [asm.atomic("lr", width, 17, base, 0, aq)] + between
                + [asm.atomic("sc", random.choice((width, width, 4)), rd, base, 9, rl)])
    names = ("swap", "add", "xor", "and", "or", "min", "max", "minu", "maxu")
    return words + [asm.atomic(random.choice(names), width, rd, base, weaver.any_register(),
                               aq | rl)]


def fence(weaver, state):
    """FENCE of any form, or FENCE.I."""
    random = weaver.random
    sort = random.random()
    if sort < 0.15:
        return [asm.FENCE_I]
    if sort < 0.3:
        return [asm.fence(8, 3, 3)]
    sets = (1, 2, 3, 3, 15, random.randrange(16))
    word = asm.fence(random.choice((0, 0, 0, 8, random.randrange(16))),
                     random.choice(sets), random.choice(sets))
    return [word | (random.getrandbits(5) << 7 if random.random() < 0.1 else 0)]


def csr(weaver, state):
    """A CSR instruction of any form; vectors mostly get code addresses."""
    random = weaver.random
    number = weaver.csr_number(state)
    form = random.choice(("write", "set", "clear"))
    rd, source = weaver.any_register(), weaver.any_register()
    if number in VECTORS and form == "write" and random.random() < 0.9:
        words = pointer(state, 7, random.choice(HANDLERS))
        return words + [asm.csr("write", number, rd, 7)]
    if number in VECTORS or number == control.SATP:
        return [asm.csr("set", number, rd, 0)]
    if random.random() < 0.3:
        return constant(7, random.choice(SMALL_CONSTANTS)) + [asm.csr(form, number, rd, 7)]
    return [asm.csr(form, number, rd, source, random.random() < 0.4)]


def counter(weaver, state):
    """A counter or pending interrupts, read or written."""
    random = weaver.random
    numbers = (0xC00, 0xC01, 0xC02, 0x144, 0xB00, 0xB02, 0x344)
    number = random.choice(numbers[:4] if state.mode < MACHINE else numbers)
    form = random.choice(("write", "set", "set", "clear"))
    if number >> 8 == 0xC and random.random() < 0.9:
        return [asm.csr("set", number, weaver.any_register(), 0)]
    rd = 0 if random.random() < 0.3 else weaver.register()
    source = 0 if random.random() < 0.4 else weaver.any_register()
    return [asm.csr(form, number, rd, source, random.random() < 0.4)]


def system(weaver, state):
    """A call, a breakpoint, a return or a wait."""
    return [weaver.random.choice((asm.ECALL, asm.EBREAK, asm.WFI, asm.SRET, asm.MRET,
                                  asm.ECALL, 0x9002, asm.WFI))]


def set_up(weaver, state):
    """Delegation, counter enables and the bits that make instructions illegal."""
    random = weaver.random
    number, value = random.choice((
        (0x302, random.getrandbits(16)), (0x303, 0x222), (0x306, random.randrange(8)),
        (0x106, random.randrange(8)), (0x300, random.choice((1 << 20, 1 << 21, 1 << 22))),
        (0x303, random.getrandbits(12))))
    form = "write" if number != 0x300 else random.choice(("set", "clear"))
    return constant(8, value) + [asm.csr(form, number, 0, 8)]


def enable(weaver, state):
    """Interrupt enables and delegation."""
    random = weaver.random
    supervisor = state.mode < MACHINE
    number, value = random.choice((
        (0x104 if supervisor else 0x304, random.choice((0xAAA, 0x222, random.getrandbits(12)))),
        (0x100 if supervisor else 0x300, random.choice((2, 8, 10, 0x22, 0x88))),
        (0x105 if supervisor else 0x303, HANDLERS[2] + 1 if supervisor else 0x222)))
    return constant(8, value) + [asm.csr(random.choice(("write", "set", "set")), number,
                                         weaver.any_register(), 8)]


def lower(weaver, state):
    """From machine mode to another mode, else a call."""
    if state.mode != MACHINE:
        return [asm.ECALL]
    offset = state.pc & 0xFFF
    target = (state.pc & ~0xFFF) + (offset + 0x40) % 0x1000
    return lower_mode(state, 6, weaver.lower(), target)


def turn_on(weaver, state):
    """Translation on, or off."""
    if state.mode < SUPERVISOR:
        return [asm.ECALL]
    random = weaver.random
    if random.random() < 0.15:
        return [asm.csr("write", control.SATP, weaver.any_register(), 0)]
    if random.random() < 0.1:
        value = random.choice((9 << 60, 8 << 60 | 0x84000, 1 << 60, 8 << 60 | ROOT_TABLE >> 11))
        return constant(6, value) + [asm.csr("write", control.SATP, 0, 6)]
    return weaver.switch_on(6)


def change_table(weaver, state):
    """A store of a new entry over one that was walked."""
    random = weaver.random
    place = random.choice(weaver.places[-6:]) if random.random() < 0.4 else LEAF_TABLE + 16
    value = entry_for(random, place, weaver.lower())
    if random.random() < 0.5:
        value = random.choice((0, 1, value ^ 0x40, value ^ 0x80, value ^ 0x10, value ^ 4,
                               value ^ 0x400, value ^ 0xC00, value ^ 2))
    words, base, offset = weaver.reach(state, place)
    # The base comes first, since it is counted from the present pc.
    return words + constant(16, value) + [asm.store(8, 16, base, offset)]


def flush(weaver, state):
    """SFENCE.VMA of any form, mostly the ones that cover something."""
    random = weaver.random
    sort = random.random()
    if sort < 0.35:
        return [asm.sfence_vma(0, 0)]
    words = pointer(state, 11, weaver.target(8)) if random.random() < 0.7 else []
    if sort < 0.8:
        return words + [asm.sfence_vma(11, 0)]
    return words + [asm.sfence_vma(random.choice((0, 11)), random.choice((0, 12)))]


def modify(weaver, state):
    """The bits that change how data accesses are translated."""
    random = weaver.random
    bits = random.choice((1 << 18, 1 << 19, 1 << 17, 1 << 17 | 1 << 11, 3 << 18, 0x1800, 0x1000))
    number = 0x300 if state.mode == MACHINE else 0x100
    return constant(8, bits) + [asm.csr(random.choice(("set", "set", "clear")), number, 0, 8)]


def change_code(weaver, state):
    """A store into code, and sometimes the fence that makes it seen."""
    random = weaver.random
    target = (state.pc & ~3) + 4 * random.randrange(-6, 12)
    words, base, offset = weaver.reach(state, target)
    new = random.choice((asm.addi(9, 9, 1), asm.addi(10, 9, 3), 0x00010001, 0x00012485,
                         asm.jal(0, 8), random.getrandbits(32)))
    tail = [asm.FENCE_I] if random.random() < 0.4 else []
    width = random.choice((4, 4, 2, 8))
    return words + constant(16, new) + [asm.store(width, 16, base, offset)] + tail


def jump(weaver, state):
    """A jump or branch, mostly forward and near."""
    random = weaver.random
    step = random.choice((4, 8, 8, 12, 16, 32))
    if random.random() < 0.3:
        return [asm.jal(weaver.any_register(), step)]
    if random.random() < 0.2:
        words = pointer(state, 13, state.pc + 24)
        return words + [asm.immediate_form(0x67, 0, weaver.any_register(), 13,
                                           random.choice((0, 1, 4, -4)))]
    return [asm.branch(random.choice(tuple(asm.BRANCHES)), weaver.any_register(),
                       weaver.any_register(), step)]


def edge(weaver, state):
    """A jump to the last half word of a page or of memory, or to an address of no page."""
    random = weaver.random
    target = random.choice((0x83FFFFFE, 0x80000FFE, 0x80001FFE, 0x40001FFE, 0x40000FFE,
                            0x80200FFE, 1 << 38, 0xFFFFFFC000000FFE, 0x84000000))
    words = pointer(state, 13, target)
    if target == 0x83FFFFFE:
        half = random.choice((0x13, 0x93, 0x0F, 0x9002, 0x0003))
        words += [asm.addi(14, 0, half if half < 2048 else 3), asm.store(2, 14, 13, 0)]
        words += [asm.FENCE_I] if random.random() < 0.7 else []
    return words + [asm.immediate_form(0x67, 0, 0, 13, 0)]


def jump_back(weaver, state):
    """A branch back over a few instructions."""
    random = weaver.random
    return [asm.branch(random.choice(("ne", "eq", "ltu", "ge")), weaver.any_register(),
                       weaver.any_register(), -4 * random.randrange(1, 10))]


def garbage(weaver, state):
    """Random bits, of both lengths."""
    random = weaver.random
    if random.random() < 0.5:
        return [random.getrandbits(32) | 3]
    return [random.getrandbits(16) & 0xFFFC | random.randrange(3)]


def near_miss(weaver, state):
    """A word of another sort with a bit or two turned, which often has no meaning."""
    random = weaver.random
    make = random.choice((arithmetic, atomic, csr, fence, load, store, system, flush, compressed))
    words = make(weaver, state)
    last = words[-1]
    for _ in range(random.choice((1, 1, 2))):
        last ^= 1 << random.randrange(2, 32 if last & 3 == 3 else 16)
    return words[:-1] + [last]


WEAVES = {
    "near miss": near_miss,
    "arithmetic": arithmetic, "compressed": compressed, "constant": constant_word, "load": load,
    "store": store, "atomic": atomic, "fence": fence, "csr": csr, "counter": counter,
    "system": system, "set up": set_up, "enable": enable, "lower": lower, "turn on": turn_on,
    "change table": change_table, "flush": flush, "modify": modify, "change code": change_code,
    "edge": edge,
    "remap": remapping.remap, "touch": remapping.touch, "remap flush": remapping.flush,
    "jump": jump, "jump back": jump_back, "garbage": garbage,
}
