"""The checks of Commit, Load and Store records, and what they leave."""

from .arithmetic import extend
from .csrs import COUNTERS
from .judgement import begin_retired, check_address, require
from .load_sources import find_sources, is_news
from .records import is_device

READ_BIT, WRITE_BIT = 0b10, 0b01


def judge_commit(case):
    """A retired instruction that is no access of memory."""
    meaning = begin_retired(case)
    form = meaning.instruction.form
    if form in ("fence_i", "sfence_vma"):
        waiting = case.history.undrained(case.record.stamp)
        if waiting:
            require(False, "Undrained", waiting[0].seq, case.record.seq)
    if form == "csr":
        check_csr_value(case, meaning)
        apply_csr(case, meaning)
    else:
        require(case.record.value == meaning.value, "Value", meaning.value, case.record.value)
    case.arch.set_register(meaning.rd, case.record.value)
    case.arch.pc = meaning.next_pc
    apply_control(case, meaning)


def check_csr_value(case, meaning):
    """The value read from a control register, or 0 where none is read."""
    csrs, number, found = case.arch.csrs, meaning.instruction.number, case.record.value
    pending = csrs.pending_bits(number)
    if meaning.rd == 0:
        require(found == 0, "Value", 0, found)
    elif number in COUNTERS:
        floor = csrs.floors[COUNTERS[number]]
        require(found >= floor, "Counter", floor, found)
        case.letters.add("C")
    elif pending is not None:
        require(found & ~pending == 0, "Adopt", found & pending, found)
        case.letters.add("C")
    else:
        expected = csrs.read(number)
        require(found == expected, "Value", expected, found)


def apply_csr(case, meaning):
    """Writes the control register, or moves the floor of a counter."""
    csrs, instruction = case.arch.csrs, meaning.instruction
    number = instruction.number
    writes = instruction.operation == "write" or instruction.rs1 != 0
    if number in COUNTERS:
        move_floor(case, meaning, writes)
    elif writes and csrs.pending_bits(number) is None:
        old = csrs.read(number)
        csrs.write(number, combine(instruction.operation, old, meaning.operand))


def move_floor(case, meaning, writes):
    """A counter's floor after a read, a write, or both."""
    csrs, instruction = case.arch.csrs, meaning.instruction
    name = COUNTERS[instruction.number]
    floor = csrs.floors[name]
    if meaning.rd != 0:
        floor = case.record.value
        if writes:
            floor = combine(instruction.operation, floor, meaning.operand)
    elif instruction.operation == "write":
        floor = meaning.operand
    elif writes:
        floor = max(floor, meaning.operand) if instruction.operation == "set" else 0
    csrs.floors[name] = floor


def combine(operation, old, operand):
    """The value that a CSR instruction writes."""
    if operation == "write":
        return operand
    return old | operand if operation == "set" else old & ~operand


def apply_control(case, meaning):
    """What returns and fences leave behind."""
    arch, record, instruction = case.arch, case.record, meaning.instruction
    if instruction.form == "mret":
        arch.mode, arch.pc = arch.csrs.return_from_machine()
    elif instruction.form == "sret":
        arch.mode, arch.pc = arch.csrs.return_from_supervisor()
    elif instruction.form == "fence_i":
        case.history.fetch_fences.append(record)
    elif instruction.form == "sfence_vma" and instruction.rs2 == 0:
        page = meaning.address >> 12 if instruction.rs1 else None
        case.history.page_fences.append((record, page))
    elif instruction.form == "fence":
        apply_fence(case, instruction)


def apply_fence(case, fence):
    """Notes which of the reads and writes around it a FENCE orders."""
    reads_write = READ_BIT | WRITE_BIT
    is_tso = fence.fence_mode == 8 and fence.before == fence.after == reads_write
    case.history.add_fence(
        case.record,
        write_write=bool(fence.before & WRITE_BIT and fence.after & WRITE_BIT),
        write_read=bool(fence.before & WRITE_BIT and fence.after & READ_BIT) and not is_tso,
        read_read=bool(fence.before & READ_BIT and fence.after & READ_BIT),
    )


def judge_load(case):
    """A load, from a device or from RAM."""
    meaning = begin_retired(case)
    check_address(case, meaning)
    record, instruction = case.record, meaning.instruction
    if is_device(record.paddr):
        due = extend(instruction.width, instruction.signed, record.value)
        require(record.value == due, "Adopt", due, record.value)
        case.letters.add("D")
    else:
        check_order(case)
        check_sources(case, instruction)
    case.arch.set_register(meaning.rd, record.value)
    case.arch.pc = meaning.next_pc


def check_order(case):
    """A load is performed after what earlier fences and acquires ask for."""
    record, history = case.record, case.history
    floor = history.order_floor()
    require(record.at >= floor, "Order", floor, record.at)
    waiting = history.undrained_before_fence(record.at, "write_read")
    if waiting:
        require(False, "Order", waiting[0].seq, record.at)


def check_sources(case, instruction):
    """Some visible moment gives the loaded value; notes where it came from."""
    record, memory, history = case.record, case.memory, case.history
    sources, due = find_sources(memory, history, record, instruction)
    require(sources is not None, "LoadSource", due, record.value)
    case.sources = sources
    if is_news(memory, history, record, record.paddr, sources):
        case.letters.add("L")
    history.add_read(record.at, record.paddr, sources)


def judge_store(case):
    """A store, which waits for its drain where it goes to RAM."""
    meaning = begin_retired(case)
    check_address(case, meaning)
    require(
        case.record.value == meaning.operand,
        "StoreData",
        meaning.operand,
        case.record.value,
    )
    case.history.add_store(case.record, meaning.instruction.width)
    case.arch.pc = meaning.next_pc
