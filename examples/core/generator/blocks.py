"""The pieces that random programs are made of: each writes a few instructions of one kind."""

import random
from collections.abc import Callable

# Registers that a program may use for numbers; x26 to x31 have uses of their own.
POOL = [f"x{number}" for number in range(5, 26)]
PRIVATE, MAGIC_REGISTER, SHARED, ADDRESS, OTHER = "x26", "x27", "x28", "x29", "x30"
MAGIC = 0x6D

USER, SUPERVISOR, MACHINE = 0, 1, 3

# The tables and pages of frame.S, and the addresses that its table of the window maps.
TABLES = 0x80010000
SUPERVISOR_ROOT, USER_ROOT, SUPERVISOR_FINE_ROOT, USER_FINE_ROOT = (TABLES + 0x1000 * number for number in range(4))
WINDOW_LAST, PAGE_A, PAGE_B, SHARED_PAGE = (TABLES + 0x1000 * number for number in range(7, 11))
WINDOW = 0x40000000
PAGE = 4096
SOFTWARE = 0x2000000
TIME = 0x200BFF8
SUPERVISOR_SOFTWARE = 0x2F00000

REGISTER_FORMS = (
    "add sub sll slt sltu xor srl sra or and mul mulh mulhsu mulhu div divu rem remu "
    "addw subw sllw srlw sraw mulw divw divuw remw remuw"
).split()
IMMEDIATE_FORMS = "addi slti sltiu xori ori andi addiw".split()
SHIFT_FORMS = [("slli", 64), ("srli", 64), ("srai", 64), ("slliw", 32), ("srliw", 32), ("sraiw", 32)]
LOADS = [("lb", 1), ("lbu", 1), ("lh", 2), ("lhu", 2), ("lw", 4), ("lwu", 4), ("ld", 8)]
STORES = [("sb", 1), ("sh", 2), ("sw", 4), ("sd", 8)]
AMOS = "amoswap amoadd amoxor amoand amoor amomin amomax amominu amomaxu".split()
ORDERS = ["", "", ".aq", ".rl", ".aqrl"]
BRANCHES = "beq bne blt bge bltu bgeu".split()
FENCE_SETS = ["r", "w", "rw", "i", "o", "iorw", "ir", "ow"]
# Registers of control and status that a program may write anything to, without harm to the handlers.
FREE_CSRS = "mtval mcause stval scause scounteren mcounteren misa".split()
READ_CSRS = (
    "mstatus misa medeleg mideleg mie mtvec mcounteren mip mvendorid marchid mimpid mhartid mconfigptr mcycle "
    "minstret cycle time instret sstatus sie stvec scounteren sip scause stval satp mepc mcause sepc"
).split()


class Writer:
    """The text of one phase as it grows."""

    def __init__(self, draw: random.Random, label: str, hart: int, mode: int) -> None:
        self.draw = draw
        self.label = label
        self.hart = hart
        self.mode = mode
        self.lines: list[str] = []
        self.labels = 0

    def say(self, line: str) -> None:
        """One instruction or directive."""
        self.lines.append(f"    {line}")

    def fresh(self) -> str:
        """A label that has not been used."""
        self.labels += 1
        return f"{self.label}_{self.labels}"

    def place(self, label: str) -> None:
        """Puts a label here."""
        self.lines.append(f"{label}:")

    def register(self) -> str:
        """One of the registers for numbers."""
        return self.draw.choice(POOL)

    def long(self, line: str) -> None:
        """One instruction that is not compressed."""
        self.lines += ["    .option push", "    .option norvc", f"    {line}", "    .option pop"]


def arithmetic(writer: Writer) -> None:
    """Some operations on registers."""
    draw = writer.draw
    for _ in range(draw.randrange(1, 6)):
        target, first, second = writer.register(), writer.register(), writer.register()
        kind = draw.randrange(5)
        if kind < 2:
            writer.say(f"{draw.choice(REGISTER_FORMS)} {target}, {first}, {second}")
        elif kind == 2:
            same = draw.choice([target, first])
            writer.say(f"{draw.choice(IMMEDIATE_FORMS)} {target}, {same}, {draw.randrange(-2048, 2048)}")
        elif kind == 3:
            form, width = draw.choice(SHIFT_FORMS)
            writer.say(f"{form} {target}, {draw.choice([target, first])}, {draw.randrange(width)}")
        else:
            writer.say(draw.choice([f"lui {target}, {draw.getrandbits(20)}", f"auipc {target}, {draw.getrandbits(20)}",
                                    f"li {target}, {draw.randrange(-32, 32)}", f"mv {target}, {first}",
                                    f"li {target}, {draw.choice([-1, 1 << 63, (1 << 31) - 1, 0])}"]))


def place_in(draw: random.Random, base: str, width: int, room: int) -> str:
    """An aligned address behind a base register."""
    return f"{draw.randrange(room // width) * width}({base})"


def accesses(writer: Writer) -> None:
    """Loads and stores of the hart's own memory and of the lines that are shared."""
    draw = writer.draw
    for _ in range(draw.randrange(1, 7)):
        base, room = draw.choice([(PRIVATE, 256), (PRIVATE, 1024), (SHARED, 256)])
        if draw.random() < 0.5:
            form, width = draw.choice(LOADS)
        else:
            form, width = draw.choice(STORES)
        writer.say(f"{form} {writer.register()}, {place_in(draw, base, width, room)}")


def atomics(writer: Writer) -> None:
    """An AMO, or LR and SC with something between them."""
    draw = writer.draw
    base = draw.choice([PRIVATE, SHARED, SHARED])
    size = draw.choice("wd")
    writer.say(f"addi {ADDRESS}, {base}, {8 * draw.randrange(24)}")
    if draw.random() < 0.6:
        form = f"{draw.choice(AMOS)}.{size}{draw.choice(ORDERS)}"
        writer.say(f"{form} {draw.choice([writer.register(), 'x0'])}, {writer.register()}, ({ADDRESS})")
        return
    writer.say(f"lr.{size}{draw.choice(ORDERS)} {writer.register()}, ({ADDRESS})")
    if draw.random() < 0.4:
        draw.choice([arithmetic, accesses, waits])(writer)
    if draw.random() < 0.15:
        writer.say(f"addi {ADDRESS}, {ADDRESS}, {draw.choice([8, 64])}")
    writer.say(f"sc.{size}{draw.choice(ORDERS)} {writer.register()}, {writer.register()}, ({ADDRESS})")


def ordered_accesses(writer: Writer) -> None:
    """Accesses to a few places of two lines with something between them that orders them."""
    draw = writer.draw
    base = draw.choice([PRIVATE, SHARED])
    places = [f"{8 * draw.randrange(2) + 64 * line}({base})" for line in range(2)]
    for _ in range(draw.randrange(2, 5)):
        writer.say(f"sd {writer.register()}, {draw.choice(places)}")
        if draw.random() < 0.3:
            writer.say(f"ld {writer.register()}, {draw.choice(places)}")
        writer.say(draw.choice(["fence w, w", "fence w, w", "fence rw, w", "fence.tso", "nop"]))
        writer.say(f"sd {writer.register()}, {draw.choice(places)}")
    writer.say(f"ld {writer.register()}, {draw.choice(places)}")
    if draw.random() < 0.5:
        writer.say(f"addi {ADDRESS}, {SHARED}, 192")
        writer.say(f"amoadd.d{draw.choice(ORDERS)} {writer.register()}, {writer.register()}, ({ADDRESS})")
        writer.say(f"ld {writer.register()}, {draw.choice(places)}")


def fences(writer: Writer) -> None:
    """A fence of some kind, also of instructions and translations."""
    draw = writer.draw
    kind = draw.randrange(8)
    if kind < 4:
        writer.say(f"fence {draw.choice(FENCE_SETS)}, {draw.choice(FENCE_SETS)}")
    elif kind == 4:
        writer.say("fence.tso")
    elif kind == 5:
        writer.say("fence.i")
    else:
        writer.say(draw.choice(["sfence.vma", f"sfence.vma {ADDRESS}", f"sfence.vma x0, {writer.register()}"]))


def registers_of_control(writer: Writer) -> None:
    """Reads and writes of registers of control and status, legal or not."""
    draw = writer.draw
    kind = draw.randrange(7)
    if kind == 0:
        counter = draw.choice(["mcycle", "cycle", "time", "minstret"])
        writer.say(f"csrr {writer.register()}, {counter}")
        draw.choice([arithmetic, waits])(writer)
        writer.say(f"csrr {writer.register()}, {counter}")
    elif kind < 3:
        writer.say(f"csrr {writer.register()}, {draw.choice(READ_CSRS)}")
    elif kind == 3:
        writer.say(f"{draw.choice(['csrrw', 'csrrs', 'csrrc'])} {writer.register()}, "
                   f"{draw.choice(FREE_CSRS)}, {writer.register()}")
    elif kind == 4:
        writer.say(f"{draw.choice(['csrrwi', 'csrrsi', 'csrrci'])} {writer.register()}, "
                   f"{draw.choice(FREE_CSRS + ['mcycle', 'minstret'])}, {draw.randrange(32)}")
    elif kind == 5:
        writer.say(f"li {OTHER}, {draw.choice([1 << 18, 1 << 19, 3 << 18])}")
        register = "mstatus" if writer.mode == MACHINE else "sstatus"
        writer.say(f"{draw.choice(['csrrs', 'csrrc'])} {writer.register()}, {register}, {OTHER}")
    else:
        writer.say(f"li {OTHER}, {draw.getrandbits(12)}")
        register = "mie" if writer.mode == MACHINE else "sie"
        writer.say(f"{draw.choice(['csrrw', 'csrrs', 'csrrc'])} {writer.register()}, {register}, {OTHER}")


def raises(writer: Writer) -> None:
    """Something that raises an exception."""
    draw = writer.draw
    kind = draw.randrange(6)
    if kind == 0:
        writer.say(draw.choice(["ecall", "ebreak", ".word 0xffffffff", ".half 0", "csrr x5, 0x7c0", "csrw 0xf14, x5",
                                ".word 0x02000053", "mret" if writer.mode != MACHINE else "csrr x6, 0x3a0"]))
    elif kind < 3:
        writer.say(f"addi {ADDRESS}, {draw.choice([PRIVATE, SHARED])}, {draw.randrange(1, 200)}")
        writer.say(draw.choice([f"lw {writer.register()}, 0({ADDRESS})", f"sd {writer.register()}, 0({ADDRESS})",
                                f"amoadd.w {writer.register()}, {writer.register()}, ({ADDRESS})",
                                f"lr.d {writer.register()}, ({ADDRESS})",
                                f"sc.d {writer.register()}, {writer.register()}, ({ADDRESS})"]))
    else:
        address = draw.choice([0x84000000, 0x83FFFFF8, 0x8000000000, -8, 0x30000000, 0xC0000000, WINDOW + (5 << 21)])
        writer.say(f"li {ADDRESS}, {address}")
        writer.say(draw.choice([f"ld {writer.register()}, 0({ADDRESS})", f"sw x0, 0({ADDRESS})",
                                f"amoor.d x0, x0, ({ADDRESS})", f"lr.w x0, ({ADDRESS})"]))


def window_accesses(writer: Writer) -> None:
    """Accesses through the window, whose entries come and go."""
    draw = writer.draw
    for _ in range(draw.randrange(1, 4)):
        page = draw.choice([draw.randrange(8) * PAGE, draw.randrange(8) * PAGE, draw.randrange(1, 5) << 21])
        writer.say(f"li {ADDRESS}, {WINDOW + page + 64 + 8 * draw.randrange(32)}")
        register = writer.register()
        writer.say(draw.choice([f"ld {register}, 0({ADDRESS})", f"lw {register}, 4({ADDRESS})",
                                f"amoadd.d {register}, {register}, ({ADDRESS})",
                                f"lbu {register}, 3({ADDRESS})"]))
        if page < 1 << 21:
            writer.say(draw.choice([f"sd {register}, 8({ADDRESS})", f"sh {register}, 2({ADDRESS})", "nop"]))


def remaps(writer: Writer) -> None:
    """New entries of one page in the window's last table, with or without the fence that each wants."""
    draw = writer.draw
    page = draw.randrange(8)
    usable = [0xDF, 0xD7] if writer.mode == USER else [0xCF, 0xC7]
    for _ in range(draw.randrange(1, 4)):
        flags = draw.choice(usable if draw.random() < 0.7 else [0xDB, 0x5F, 0xD3, 0x00, 0xDF, 0xCF])
        writer.say(f"li {ADDRESS}, {draw.choice([PAGE_A, PAGE_B, SHARED_PAGE]) >> 2 | flags}")
        writer.say(f"li {OTHER}, {WINDOW_LAST}")
        writer.say(f"sd {ADDRESS}, {8 * page}({OTHER})")
        writer.say(f"li {ADDRESS}, {WINDOW + page * PAGE + 128}")
        writer.say(draw.choice(["sfence.vma", f"sfence.vma {ADDRESS}", "nop", "fence"]))
        writer.say(f"ld {writer.register()}, 0({ADDRESS})")


def devices(writer: Writer) -> None:
    """Accesses to devices: the time, and software interrupts of both harts."""
    draw = writer.draw
    hart = draw.randrange(2)
    address = draw.choice([TIME, SOFTWARE + 4 * hart, SUPERVISOR_SOFTWARE + 4 * hart])
    writer.say(f"li {ADDRESS}, {address}")
    if address == TIME or draw.random() < 0.3:
        writer.say(f"{draw.choice(['lw', 'lbu', 'lwu'])} {writer.register()}, 0({ADDRESS})")
    else:
        writer.say(f"li {OTHER}, 1")
        writer.say(f"sw {OTHER}, 0({ADDRESS})")


def jumps(writer: Writer) -> None:
    """A jump forward, a call, or a small loop."""
    draw = writer.draw
    label = writer.fresh()
    kind = draw.randrange(4)
    if kind == 0:
        writer.say(f"{draw.choice(BRANCHES)} {writer.register()}, {writer.register()}, {label}")
        arithmetic(writer)
        writer.place(label)
    elif kind == 1:
        writer.say(f"la {ADDRESS}, {label}")
        writer.say(f"{draw.choice(['jalr x1,', 'jalr x0,', 'jalr x5,'])} 1({ADDRESS})")
        arithmetic(writer)
        writer.place(label)
    elif kind == 2:
        writer.say(f"li {OTHER}, {draw.randrange(2, 5)}")
        writer.place(label)
        draw.choice([arithmetic, accesses])(writer)
        writer.say(f"addi {OTHER}, {OTHER}, -1")
        writer.say(f"bnez {OTHER}, {label}")
    else:
        writer.say(f"jal {draw.choice(['x0', 'x1', 'x6'])}, {label}")
        arithmetic(writer)
        writer.place(label)


def fetches(writer: Writer) -> None:
    """A jump to a place where the fetch may fail; the way back is in x1."""
    draw = writer.draw
    label = writer.fresh()
    window = WINDOW + draw.randrange(7) * PAGE
    target = draw.choice([window, window, window + PAGE - 2, window + PAGE - 2, 0x84000000, 0x10000, -4096,
                          WINDOW + (3 << 21)])
    # The first instruction of a page stands behind the end of one from the page before.
    target += 2 if target == window else 0
    writer.say(f"la x1, {label}")
    writer.say(f"li {ADDRESS}, {target}")
    writer.say(f"jr {ADDRESS}")
    writer.place(label)


def own_code(writer: Writer) -> None:
    """Writes an instruction that is run soon after, with or without FENCE.I."""
    draw = writer.draw
    label = writer.fresh()
    register = draw.randrange(5, 26)
    word = 0x13 | register << 7 | register << 15 | draw.randrange(1, 100) << 20
    writer.say(f"la {ADDRESS}, {label}")
    writer.say(f"li {OTHER}, {word}")
    writer.say(f"sw {OTHER}, 0({ADDRESS})")
    writer.say(draw.choice(["fence.i", "nop", "fence rw, rw"]))
    writer.say(".balign 4")
    writer.place(label)
    writer.long(f"addi {writer.register()}, {writer.register()}, 1")


def returns(writer: Writer) -> None:
    """MRET or SRET to the next instruction, in the same mode: no interrupt may come between, since the way back
    from it changes the mode that is returned to."""
    label = writer.fresh()
    writer.say("csrci mstatus, 8" if writer.mode == MACHINE else "csrci sstatus, 2")
    writer.say(f"la {ADDRESS}, {label}")
    if writer.mode == MACHINE:
        writer.say(f"csrw mepc, {ADDRESS}")
        writer.say(f"li {ADDRESS}, 0x1800")
        writer.say(f"csrs mstatus, {ADDRESS}")
        writer.say("mret")
    else:
        writer.say(f"csrw sepc, {ADDRESS}")
        writer.say(f"li {ADDRESS}, 0x100")
        writer.say(f"csrs sstatus, {ADDRESS}")
        writer.say("sret")
    writer.place(label)


def waits(writer: Writer) -> None:
    """A few tries to see what the other hart writes, or a WFI."""
    draw = writer.draw
    if draw.random() < 0.3:
        writer.say("wfi")
        return
    label = writer.fresh()
    writer.say(f"li {OTHER}, {draw.randrange(4, 20)}")
    writer.place(label)
    writer.say(f"ld {writer.register()}, {8 * draw.randrange(32)}({SHARED})")
    writer.say(f"addi {OTHER}, {OTHER}, -1")
    writer.say(f"bnez {OTHER}, {label}")


BLOCKS: list[tuple[Callable[[Writer], None], int]] = [
    (arithmetic, 6),
    (accesses, 9),
    (ordered_accesses, 4),
    (atomics, 6),
    (fences, 4),
    (registers_of_control, 4),
    (raises, 2),
    (window_accesses, 4),
    (remaps, 3),
    (devices, 2),
    (jumps, 4),
    (fetches, 2),
    (own_code, 2),
    (returns, 1),
    (waits, 2),
]


def body(writer: Writer, length: int) -> None:
    """A phase of so many blocks."""
    draw = writer.draw
    writer.place(writer.label)
    writer.say(f"la {PRIVATE}, private_{writer.hart}")
    writer.say(f"li {SHARED}, {SHARED_PAGE + 1024}")
    writer.say(f"li {MAGIC_REGISTER}, 0")
    for register in draw.sample(POOL, 8):
        writer.say(f"li {register}, {draw.getrandbits(draw.choice([8, 32, 64]))}")
    kinds = [kind for kind, _ in BLOCKS]
    weights = [weight for _, weight in BLOCKS]
    for kind in draw.choices(kinds, weights, k=length):
        kind(writer)
    writer.say(f"li {MAGIC_REGISTER}, {MAGIC}")
    writer.say("ecall")
