"""The checks of Atomic records: reservations, old values and what is written."""

from .arithmetic import atomic_result, extend
from .hart_history import Source
from .judgement import begin_retired, check_address, require
from .load_sources import is_news
from .records import line_of


def judge_atomic(case):
    """An LR, SC or AMO, which takes place exactly at its key."""
    meaning = begin_retired(case)
    check_address(case, meaning)
    record, instruction = case.record, meaning.instruction
    is_failed = instruction.form == "sc" and not record.wrote
    check_drained(case, instruction, is_failed)
    if instruction.form == "sc":
        check_conditional(case)
        new = meaning.operand if record.wrote else 0
    else:
        new = check_old_value(case, meaning)
    check_written(case, instruction, new)
    if instruction.acquire and not is_failed:
        case.history.acquires.append(record.stamp)
    if instruction.form == "lr":
        case.history.reservation = line_of(record.paddr), record.key
    elif instruction.form == "sc":
        case.history.reservation = None
    case.arch.set_register(meaning.rd, record.value)
    case.arch.pc = meaning.next_pc


def check_drained(case, instruction, is_failed):
    """The own stores that must be in memory before the access are there."""
    record, history = case.record, case.history
    waiting = history.undrained(record.stamp)
    line = line_of(record.paddr)
    concerned = [[store for store in waiting if store.line == line]]
    if instruction.release and not is_failed:
        concerned.append(waiting)
    if instruction.form != "sc":
        concerned.append(history.undrained_before_fence(record.stamp, "write_read"))
    if instruction.form != "lr" and not is_failed:
        concerned.append(history.undrained_before_fence(record.stamp, "write_write"))
    for stores in concerned:
        if stores:
            require(False, "Undrained", stores[0].seq, record.seq)


def check_conditional(case):
    """An SC succeeds only with a live reservation, and says so in its value."""
    record = case.record
    is_live = has_live_reservation(case)
    if record.wrote:
        require(is_live, "ScSuccess", 1, 0)
        require(record.value == 0, "AtomicValue", 0, record.value)
    else:
        require(record.value != 0, "AtomicValue", 1, record.value)
        if is_live:
            case.letters.add("S")


def has_live_reservation(case):
    """Whether the line is reserved and no other hart wrote it since."""
    record, reservation = case.record, case.history.reservation
    if reservation is None or reservation[0] != line_of(record.paddr):
        return False
    line, since = reservation
    return not case.memory.is_touched(line, since, record.key, record.hart)


def check_old_value(case, meaning):
    """An LR or AMO reads memory as it stands at its key; gives what is written."""
    record, memory, instruction = case.record, case.memory, meaning.instruction
    moment = memory.moment_of(record)
    addresses = range(record.paddr, record.paddr + instruction.width)
    old = memory.number(moment, record.paddr, instruction.width)
    due = extend(instruction.width, True, old)
    require(record.value == due, "AtomicValue", due, record.value)
    case.sources = [Source(write=memory.source(moment, place)) for place in addresses]
    if is_news(memory, case.history, record, record.paddr, case.sources):
        case.letters.add("L")
    case.history.add_read(record.stamp, record.paddr, case.sources)
    if instruction.form == "lr":
        return 0
    return atomic_result(instruction.operation, instruction.width, old, meaning.operand)


def check_written(case, instruction, new):
    """Width, success and new value are those of the instruction."""
    record = case.record
    wrote = {"lr": 0, "amo": 1, "sc": record.wrote}[instruction.form]
    pairs = (
        (instruction.width, record.width),
        (wrote, record.wrote),
        (new, record.new),
    )
    for expected, found in pairs:
        require(expected == found, "AtomicWrite", expected, found)
