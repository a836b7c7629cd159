"""Chooses instructions where a hart fetches from code that nobody has read yet."""

from difftest_probes.isa import assembler as asm
from difftest_probes.isa import csrs as control
from difftest_probes.isa.compressed import expand
from difftest_probes.isa.decoding import decode
from difftest_probes.isa.fields import INTERRUPT_FLAG, MACHINE, SUPERVISOR, USER
from . import remapping
from .flavours import PAGED, TARGETS
from .page_tables import entry_for
from .scripts import (CHUNK_REGISTER, CHUNKS_START, CODE_REGISTER, CODE_SHIFT, CODE_START,
                      DATA_START, HANDLERS, IMAGE_LIMIT, LEAF_TABLE, MIDDLE_TABLE, ROOT_TABLE,
                      TOP_TABLE, WIDE_LIMIT, constant, lower_mode, near, next_chunk, pointer,
                      return_to_machine, skip_and_return)
from .weaves import WEAVES

ALIAS_BASES = (0x80000000, 0x40000000, 0, 0xFFFFFFC000000000, 0xFFFFFFFFC0000000, 0x80200000)


class Weaver:
    """The chooser of code and data of one file."""

    def __init__(self, random, flavour, weights, wide=False):
        self.random = random
        self.wide = wide
        self.limit = WIDE_LIMIT if wide else IMAGE_LIMIT
        self.flavour = flavour
        self.names, self.weights = zip(*weights.items())
        self.targets = TARGETS.get(flavour, {"shared": 1})
        self.queues = {}
        self.booted = False
        self.places = [ROOT_TABLE + 16, MIDDLE_TABLE, LEAF_TABLE + 8, LEAF_TABLE + 16]
        self.image = None
        self.walker = SUPERVISOR
        self.user_odds = random.choice((0.02, 0.98)) if flavour in PAGED else 0.4
        # Fences matter where stores go to several lines.
        self.spread = random.choice((128, 192) if flavour == "fences" else (8, 16, 64, 128, 192))

    def next_word(self, state, place):
        """The word for the hart's present pc, whose physical address is the place."""
        queue = self.queues.setdefault(state.number, [])
        if not self.booted:
            self.booted = True
            queue.extend(self._boot(state))
        elif self._entered(state) and self.random.random() < 0.9:
            queue[:0] = self._handler(state)
        elif not queue:
            queue.extend(WEAVES[self._sort(state)](self, state))
        word = queue.pop(0)
        self._place(place + (4 if word & 3 == 3 else 2), queue)
        return word

    def _sort(self, state):
        """The sort of what comes next."""
        if self.flavour in PAGED and state.mode == MACHINE and self.random.random() < 0.3:
            return "lower"
        return self.random.choices(self.names, self.weights)[0]

    def _place(self, place, queue):
        """Puts the waiting words into the code that follows, as far as it is open."""
        page = place >> 12
        while queue:
            length = 4 if queue[0] & 3 == 3 else 2
            if place + length - 1 >> 12 != page or not self.image.is_open(place, length):
                break
            self.image.define(place, queue.pop(0), length)
            place += length

    def _boot(self, state):
        """The first words of a hart: mostly a trap vector, and what the flavour is about."""
        if self.flavour == "remap":
            return remapping.boot(self, state)
        handler = self.random.choice(HANDLERS)
        words = pointer(state, 5, handler)
        words += [asm.addi(CHUNK_REGISTER, 5, CHUNKS_START - handler),
                  asm.upper(CODE_REGISTER, CODE_START >> CODE_SHIFT >> 12, False)]
        if self.random.random() < 0.95:
            words += [asm.csr("write", 0x305, 0, 5)]
        if self.flavour == "interrupts" and self.random.random() < 0.7:
            words += constant(8, 0xAAA) + [asm.csr("write", 0x304, 0, 8),
                                           asm.csr("set", 0x300, 0, 10, True)]
        if self.flavour in PAGED:
            if self.random.random() < 0.4 and self.user_odds < 0.5:
                words += constant(6, self.random.getrandbits(16))
                words += [asm.csr("write", 0x302, 0, 6)]
            words += self.switch_on(6)
            words += lower_mode(state, 6, self.lower(), CODE_START + 0x100)
        return words

    def lower(self):
        """A mode below machine mode."""
        return USER if self.random.random() < self.user_odds else SUPERVISOR

    def switch_on(self, rd):
        """Words that write satp so that translation may be on."""
        mode, root = 8, ROOT_TABLE
        if self.wide and self.random.random() < 0.75:
            mode, root = 9, TOP_TABLE
        value = mode << 60 | self.random.choice((0, 0, 7)) << 44 | root >> 12
        return constant(rd, value) + [asm.csr("write", 0x180, 0, rd)]

    def _entered(self, state):
        """Whether the pc is where the last trap into this mode went."""
        if state.mode == USER:
            return False
        letter = "m" if state.mode == MACHINE else "s"
        vector, cause = state.csrs[letter + "tvec"], state.csrs[letter + "cause"]
        start = vector & ~3
        if vector & 1 and cause & INTERRUPT_FLAG:
            start += 4 * (cause & 63)
        return state.pc == start

    def _handler(self, state):
        if self.flavour == "remap":
            return remapping.handler(self, state)
        supervisor = state.mode == SUPERVISOR
        words, sort = [], self.random.random()
        if self.flavour in PAGED and self.random.random() < 0.5 and state.mode == MACHINE:
            words = WEAVES["change table"](self, state)
        if self.flavour in PAGED and state.mode == MACHINE and self.random.random() < 0.6:
            return words + return_to_machine(self.register())
        if sort < 0.65:
            return words + next_chunk(self.register(), supervisor, 4 if sort < 0.6 else 2)
        if sort < 0.92:
            return words + skip_and_return(self.register(), supervisor, 4 if sort < 0.88 else 2)
        return words + WEAVES[self.random.choices(self.names, self.weights)[0]](self, state)

    def register(self):
        """A register to write."""
        return self.random.randrange(6, 16)

    def any_register(self):
        """Any register, register 0 too."""
        return self.random.randrange(30) if self.random.random() < 0.3 else (
            self.random.randrange(16))

    def target(self, width):
        """An address for a data access."""
        random = self.random
        sort = random.choices(tuple(self.targets), tuple(self.targets.values()))[0]
        inside = random.randrange(self.spread) & -width
        if sort == "unaligned":
            return DATA_START + random.randrange(self.spread)
        if sort == "device":
            return random.choice((0x1000, 0x10000000, 0, 0x7FFFFFF8)) | inside & 7
        if sort == "outside":
            return random.choice((0x84000000, 0xFFFFFFFFFFFFFFF8, 1 << 40, 0x8000000000))
        if sort == "wild":
            return random.getrandbits(64) & -width
        if sort == "alias":
            return random.choice(ALIAS_BASES) + 0x1000 * random.choice((2, 2, 2, 3, 7)) + inside
        if sort == "edge":
            return random.choice((0x83FFFFF8, 0x80001FF8, 0x80002FF8, 0x7FFFFFF8)) + inside % 8
        if sort == "table":
            return random.choice(self.places) + inside % 8
        if sort == "code":
            return random.randrange(CODE_START, CODE_START + 0x200) & -width
        return DATA_START + inside

    def reach(self, state, target):
        """Words, a base register and an offset for an address."""
        return near(state, self.register(), target)

    def compressed(self):
        """A 16-bit instruction that doesn't jump away, most of the time."""
        while True:
            half = self.random.getrandbits(16)
            word = expand(half) if half & 3 != 3 else None
            if word is None:
                continue
            group = decode(word).group
            far = group in ("jalr", "ebreak") or group in ("jal", "branch") and half & 0x1000
            if not far or self.random.random() < 0.1:
                return half

    def walked(self, place, mode):
        """Notes a table entry that a walk for this mode reads."""
        self.walker = mode
        if place < self.limit and place not in self.places:
            self.places.append(place)

    def fill(self, start):
        """The value of eight open bytes that somebody reads as data."""
        random = self.random
        if IMAGE_LIMIT <= start < TOP_TABLE:
            return 0
        if start >= ROOT_TABLE:
            return entry_for(random, start, self.walker)
        if start < DATA_START:
            return asm.addi(0, 0, 1) | asm.addi(9, 9, random.randrange(9)) << 32
        return random.choice((0, random.getrandbits(64), random.getrandbits(7), DATA_START,
                              CODE_START + 0x40, 0x8080808080808080))

    def refill_line(self):
        """A line for a refill, mostly one with data."""
        table = self.random.choice(self.places) & ~63
        return self.random.choice((DATA_START, DATA_START + 64, table, IMAGE_LIMIT, 0x83FFFFC0))

    def csr_number(self, state):
        """A CSR number, mostly one that the mode may reach."""
        if self.random.random() < 0.05:
            return self.random.getrandbits(12)
        numbers = control.ALL_NUMBERS
        if self.random.random() < 0.85:
            numbers = [number for number in numbers if number >> 8 & 3 <= state.mode]
        return self.random.choice(numbers)
