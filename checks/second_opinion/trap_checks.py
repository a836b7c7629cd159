"""The checks of Trap records: interrupts, fetch faults and other causes."""

from .csrs import INTERRUPT_BIT
from .judgement import (
    NONE,
    NotAllowed,
    access_request,
    check_fetch,
    check_halfword,
    check_pc,
    require,
)
from .meaning import BREAKPOINT, ILLEGAL, meaning_of
from .translation import (
    ACCESS_FAULT,
    FETCH,
    LOAD,
    PAGE_FAULT,
    STORE,
    newest_with,
    outcome,
    request_of,
)

# The cause of each kind of fault, by what the access is.
FAULT_CAUSES = {
    FETCH: {ACCESS_FAULT: 1, PAGE_FAULT: 12},
    LOAD: {ACCESS_FAULT: 5, PAGE_FAULT: 13},
    STORE: {ACCESS_FAULT: 7, PAGE_FAULT: 15},
}


def judge_trap(case):
    """A trap, by the group that its cause belongs to."""
    check_pc(case)
    record, arch = case.record, case.arch
    if record.cause & INTERRUPT_BIT:
        expected_tval = check_interrupt(case)
    elif record.cause in FAULT_CAUSES[FETCH].values():
        expected_tval = check_fetch_fault(case)
    else:
        expected_tval = check_other_cause(case)
    require(record.tval in (0, expected_tval), "Tval", expected_tval, record.tval)
    if record.tval != expected_tval:
        case.letters.add("Z")
    arch.mode, arch.pc = arch.csrs.enter_trap(
        arch.mode, record.pc, record.cause, record.tval
    )


def check_interrupt(case):
    """The interrupt is enabled; gives the expected tval."""
    enabled = case.arch.csrs.enabled_interrupts(case.arch.mode)
    code = case.record.cause & ~INTERRUPT_BIT
    is_enabled = code < 64 and enabled >> code & 1
    require(is_enabled, "Interrupt", enabled, case.record.cause)
    case.letters.add("I")
    return 0


def check_fetch_fault(case):
    """A fetch of the first or second halfword faults; gives the address."""
    record = case.record
    address = record.pc
    if record.bits:
        starts_long = record.bits & 3 == 3 and record.bits < 0x10000
        require(starts_long, "Fetch", record.pc, record.bits & 0xFFFF)
        check_halfword(case, record.pc, record.bits)
        address = (record.pc + 2) % (1 << 64)
    request = request_of(case.arch, address, FETCH, ram_only=True)
    check_fault(case, request)
    return address


def check_fault(case, request):
    """Some moment of the window gives the fault that the record names."""
    causes = FAULT_CAUSES[request.access]
    window = case.window(request.address)
    chosen = None
    for fault, cause in causes.items():
        if cause == case.record.cause:
            chosen = newest_with(case.memory, window, request, fault)
    if chosen is None:
        due = outcome(case.memory, window[1], request)
        raise NotAllowed("Cause", causes.get(due, NONE), case.record.cause)
    case.note_choice(chosen, window[1])


def check_other_cause(case):
    """The instruction raises the cause, alone or by its access; gives the tval."""
    check_fetch(case)
    record = case.record
    meaning = meaning_of(case.arch, record.bits)
    if meaning.cause is not None:
        require(record.cause == meaning.cause, "Cause", meaning.cause, record.cause)
    elif meaning.access:
        check_fault(case, access_request(case, meaning))
    else:
        raise NotAllowed("Cause", NONE, record.cause)
    if record.cause == ILLEGAL:
        return record.bits
    if record.cause == BREAKPOINT:
        return record.pc
    return meaning.address if meaning.access else 0
