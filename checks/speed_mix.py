"""The benchmark's mix: harts that load, store, drain, fence, add atomically, and reserve and store
conditionally, over 64 KiB of their own and 1 KiB that all share.

The harts take turns; each writes one record a cycle. A store waits in its hart's buffer, in an entry for
each line, until a drain writes the entry, the oldest first.
"""
import struct

from speed_files import ATOMIC, AUIPC_X5, COMMIT, DRAIN, LOAD, RAM, STORE, asm, words_of

MASK = 2 ** 64 - 1
SHARED = RAM + 0x10_0000
COUNTER, LOCK = SHARED + 0x400, SHARED + 0x480
OWN = RAM + 0x11_0000
FACTOR, SUMMAND = 0x41C6_4E6D, 12_345
ROOT = RAM + 0x2000

SETUP = [
    AUIPC_X5, asm.csr("set", 0xF14, 6, 0), asm.addi(8, 6, 1), asm.shift("sll", 6, 6, 16), asm.upper(7, 0x100, False),
    asm.register_form("add", 18, 5, 7), asm.addi(21, 18, 0x400), asm.addi(23, 18, 0x480), asm.upper(7, 0x10, False),
    asm.register_form("add", 5, 18, 7), asm.register_form("add", 5, 5, 6), asm.upper(9, 0x41C65, False),
    asm.addi(9, 9, -0x193), asm.upper(10, 3, False), asm.addi(10, 10, 57), asm.upper(12, 0x10, False),
    asm.addi(12, 12, -8), asm.addi(17, 0, 0x3F8),
]
# satp with the root of the tables, mstatus with MPP = S, mepc behind the MRET, and the MRET.
TRANSLATING = [
    asm.addi(26, 0, 1), asm.shift("sll", 26, 26, 63), asm.upper(27, 0x80, False), asm.addi(27, 27, 2),
    asm.register_form("or", 26, 26, 27), asm.csr("write", 0x180, 0, 26), asm.upper(27, 1, False),
    asm.shift("srl", 27, 27, 1), asm.csr("write", 0x300, 0, 27), asm.upper(28, 0, True), asm.addi(28, 28, 16),
    asm.csr("write", 0x341, 0, 28), asm.MRET,
]
LOOP = [
    asm.register_form("mul", 8, 8, 9), asm.register_form("add", 8, 8, 10), asm.shift("srl", 11, 8, 24),
    asm.register_form("and", 11, 11, 12), asm.register_form("add", 13, 5, 11), asm.load(8, True, 14, 13, 0),
    asm.register_form("add", 14, 14, 8), asm.store(8, 14, 13, 0), asm.load(8, True, 15, 13, 0),
    asm.fence(0, 1, 1), asm.shift("srl", 16, 8, 45), asm.register_form("and", 16, 16, 17),
    asm.register_form("add", 16, 18, 16), asm.load(8, True, 19, 16, 0), asm.store(8, 8, 16, 0),
    asm.atomic("add", 8, 20, 21, 10), asm.atomic("lr", 8, 22, 23), asm.atomic("sc", 8, 24, 23, 8),
    asm.immediate_form(0x13, 7, 25, 8, 0x70), asm.branch("ne", 25, 0, 8), asm.fence(0, 3, 3), asm.jal(0, -84),
]


class Memory:
    """Doubles by their addresses, the cycle, and each hart's reserved line."""

    def __init__(self):
        self.doubles, self.stamp, self.reserved = {}, 0, {}

    def read(self, paddr):
        return self.doubles.get(paddr, 0)

    def write(self, hart, paddr, value):
        self.doubles[paddr] = value
        for other, line in self.reserved.items():
            if other != hart and line == paddr & ~63:
                self.reserved[other] = None


class Hart:
    """One hart of the mix; `records` gives one record a cycle."""

    def __init__(self, number, memory, setup):
        self.number, self.memory, self.setup = number, memory, setup
        self.entries = []               # a line, its stores as (address, value), and the fences before it
        self.youngest = {}              # the youngest waiting store of each double
        self.fences = 0
        self.code = setup + LOOP

    def commit(self, place, value):
        return COMMIT(1, self.number, self.memory.stamp, RAM + 4 * place, self.code[place], value)

    def load(self, place, paddr):
        value = self.youngest.get(paddr, self.memory.read(paddr))
        stamp = self.memory.stamp
        return value, LOAD(5, self.number, stamp, RAM + 4 * place, self.code[place], value, stamp, paddr)

    def store(self, place, paddr, value):
        line = paddr & ~63
        last = self.entries[-1] if self.entries else None
        if last and last[0] == line and last[2] == self.fences:
            last[1].append((paddr, value))
        else:
            self.entries.append((line, [(paddr, value)], self.fences))
        self.youngest[paddr] = value
        return STORE(6, self.number, self.memory.stamp, RAM + 4 * place, self.code[place], paddr, value)

    def drain(self):
        """The drain of the oldest entry."""
        line, stores, _ = self.entries.pop(0)
        mask, content = 0, bytearray(64)
        for paddr, value in stores:
            mask |= 0xFF << (paddr & 63)
            content[paddr & 63:(paddr & 63) + 8] = struct.pack("<Q", value)
            self.memory.write(self.number, paddr, value)
        waiting = {paddr for entry in self.entries for paddr, _ in entry[1]}
        for paddr in {paddr for paddr, _ in stores} - waiting:
            del self.youngest[paddr]
        return DRAIN(8, self.number, self.memory.stamp, line, mask, len(stores), bytes(content))

    def atomic(self, place, value, paddr, new):
        """`new` is what is written, or None."""
        if new is not None:
            self.memory.write(self.number, paddr, new)
        return ATOMIC(7, self.number, self.memory.stamp, RAM + 4 * place, self.code[place], value, paddr, 8,
                      int(new is not None), new or 0)

    def set_up(self):
        """The records before the loop."""
        base = OWN + 0x1_0000 * self.number
        shown = [RAM, self.number, self.number + 1, self.number << 16, 0x10_0000, SHARED, COUNTER, LOCK, 0x1_0000,
                 OWN, base, 0x41C6_5000, FACTOR, 0x3000, SUMMAND, 0x1_0000, 0xFFF8, 0x3F8]
        here = RAM + 4 * (len(SETUP) + 9)
        shown += [1, 1 << 63, 0x8_0000, 0x8_0002, 1 << 63 | 0x8_0002, 0, 0x1000, 0x800, 0, here, here + 16, 0, 0]
        for place in range(len(self.setup)):
            yield self.commit(place, shown[place])
        return base

    def records(self):
        base, at = (yield from self.set_up()), len(self.setup)
        draw = self.number + 1
        while True:
            product = draw * FACTOR & MASK
            yield self.commit(at, product)
            draw = (product + SUMMAND) & MASK
            yield self.commit(at + 1, draw)
            yield from self.own_accesses(at + 2, base, draw)
            yield from self.shared_accesses(at + 9, draw)
            yield from self.atomics(at + 15, draw)
            yield from self.turn_back(at + 18, draw)

    def own_accesses(self, at, base, draw):
        place = draw >> 24
        yield self.commit(at, place)
        place &= 0xFFF8
        yield self.commit(at + 1, place)
        yield self.commit(at + 2, base + place)
        value, record = self.load(at + 3, base + place)
        yield record
        value = (value + draw) & MASK
        yield self.commit(at + 4, value)
        yield self.store(at + 5, base + place, value)
        yield self.load(at + 6, base + place)[1]

    def shared_accesses(self, at, draw):
        self.fences += 1
        yield self.commit(at, 0)
        place = draw >> 45
        yield self.commit(at + 1, place)
        place &= 0x3F8
        yield self.commit(at + 2, place)
        yield self.commit(at + 3, SHARED + place)
        yield self.load(at + 4, SHARED + place)[1]
        yield self.store(at + 5, SHARED + place, draw)

    def atomics(self, at, draw):
        """An atomic waits for the stores before the last fence."""
        while self.entries and self.entries[0][2] < self.fences:
            yield self.drain()
        old = self.memory.read(COUNTER)
        yield self.atomic(at, old, COUNTER, (old + SUMMAND) & MASK)
        self.memory.reserved[self.number] = LOCK
        yield self.atomic(at + 1, self.memory.read(LOCK), LOCK, None)
        if self.memory.reserved[self.number] is None:
            yield self.atomic(at + 2, 1, LOCK, None)
        else:
            yield self.atomic(at + 2, 0, LOCK, draw)

    def turn_back(self, at, draw):
        """Each eighth turn on average has a fence behind which all stores have drained."""
        yield self.commit(at, draw & 0x70)
        yield self.commit(at + 1, 0)
        if draw & 0x70 == 0:
            yield self.commit(at + 2, 0)
            while self.entries:
                yield self.drain()
        yield self.commit(at + 3, 0)


def image_of(code, translates):
    """The code and, where data and code are translated, tables that map 2 MiB of RAM onto themselves."""
    image = words_of(code)
    if translates:
        image = image.ljust(ROOT - RAM, b"\0")
        root = [0, 0, (RAM + 0x3000) >> 2 | 1] + [0] * 509
        middle = [(RAM + 0x4000) >> 2 | 1] + [0] * 511
        leaves = [(RAM + 0x1000 * page) >> 2 | 0xCF for page in range(512)]
        image += struct.pack("<1536Q", *root, *middle, *leaves)
    return image


def mix(harts, records_a_hart, translates):
    """Some harts write so many records each."""
    setup = SETUP + TRANSLATING if translates else SETUP
    memory = Memory()
    streams = [Hart(number, memory, setup).records() for number in range(harts)]

    def records():
        for stamp in range(records_a_hart):
            memory.stamp = stamp
            for stream in streams:
                yield next(stream)

    return image_of(setup + LOOP, translates), harts, records()
