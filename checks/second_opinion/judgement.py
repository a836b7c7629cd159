"""One record under judgement: the reasons of a refusal and the first checks."""

from dataclasses import dataclass, field

from .meaning import Arch, halfwords, meaning_of
from .hart_history import History
from .records import line_of
from .translation import FETCH, newest_fetch, newest_with, outcome, request_of

NONE = (1 << 64) - 1

REASONS = {
    "Pc": 1,
    "Fetch": 2,
    "Raises": 3,
    "Kind": 4,
    "Cause": 5,
    "Tval": 6,
    "Interrupt": 7,
    "Value": 8,
    "Address": 9,
    "StoreData": 10,
    "Order": 11,
    "LoadSource": 12,
    "Adopt": 13,
    "Counter": 14,
    "Undrained": 15,
    "AtomicValue": 16,
    "AtomicWrite": 17,
    "Refill": 18,
    "ScSuccess": 19,
    "DrainCount": 20,
    "DrainData": 21,
    "Barrier": 22,
    "State": 23,
}


class NotAllowed(Exception):
    """No rule allows the record."""

    def __init__(self, reason, expected, found):
        super().__init__(reason)
        self.reason = reason
        self.expected = expected
        self.found = found


class Hart:
    """The reference of one hart: its state and what it has done."""

    def __init__(self, number, is_wide):
        self.arch = Arch(number, is_wide)
        self.history = History()


@dataclass
class Case:
    """A record with everything that its checks read, and what they note."""

    record: object
    hart: Hart
    memory: object
    letters: set = field(default_factory=set)
    sources: list = field(default_factory=list)

    @property
    def arch(self):
        """The state before the record."""
        return self.hart.arch

    @property
    def history(self):
        """What the hart did before the record."""
        return self.hart.history

    def greatest_moment(self):
        """The greatest moment that the record may see in its own cycle."""
        return self.memory.visible(self.record, self.record.stamp)[1]

    def least_moment_of(self, fence):
        """The least moment that an earlier fence may see, or the first of all."""
        if fence is None:
            return 0
        return self.memory.visible(fence, fence.stamp)[0]

    def window(self, address):
        """The moments whose translations of an address may still be in use."""
        fence = self.history.last_page_fence(address)
        return self.least_moment_of(fence), self.greatest_moment()

    def note_choice(self, chosen, last):
        """Notes that a choice was not the last that the record could see."""
        if chosen != last:
            self.letters.add("P")


def require(holds, reason, expected, found):
    """Refuses the record for a reason unless the check holds."""
    if not holds:
        raise NotAllowed(reason, expected, found)


def check_pc(case):
    """The record is at the hart's pc."""
    require(case.record.pc == case.arch.pc, "Pc", case.arch.pc, case.record.pc)


def check_fetch(case):
    """Memory has held each halfword where the hart may have fetched it."""
    for place, half in enumerate(halfwords(case.record.bits)):
        check_halfword(case, (case.record.pc + 2 * place) % (1 << 64), half)


def check_halfword(case, address, half):
    """One halfword may have been fetched at an address."""
    request = request_of(case.arch, address, FETCH, ram_only=True)
    window = case.window(address)
    last_fence = case.history.fetch_fences[-1] if case.history.fetch_fences else None
    since = case.least_moment_of(last_fence), case.greatest_moment()
    chosen = newest_fetch(case.memory, window, since, request, half)
    require(chosen is not None, "Fetch", address, half)
    case.note_choice(chosen[0], window[1])
    case.note_choice(chosen[1], since[1])


def begin_retired(case):
    """The checks that all retired instructions share; gives the meaning."""
    check_pc(case)
    check_fetch(case)
    meaning = meaning_of(case.arch, case.record.bits)
    require(meaning.cause is None, "Raises", meaning.cause, NONE)
    due = {"Commit": 1, "Load": 5, "Store": 6, "Atomic": 7}[meaning.kind]
    require(meaning.kind == case.record.kind, "Kind", due, case.record.tag)
    return meaning


def access_request(case, meaning):
    """The translation that a data access asks for; atomics need RAM."""
    return request_of(
        case.arch, meaning.address, meaning.access, meaning.kind == "Atomic"
    )


def check_address(case, meaning):
    """Some moment of the window gives the physical address of the record."""
    request = access_request(case, meaning)
    window = case.window(meaning.address)
    chosen = newest_with(case.memory, window, request, case.record.paddr)
    if chosen is None:
        due = outcome(case.memory, window[1], request)
        expected = due if isinstance(due, int) else NONE
        raise NotAllowed("Address", expected, case.record.paddr)
    case.note_choice(chosen, window[1])


def check_refill(case):
    """Some visible moment has the whole line as the record shows it."""
    record, memory = case.record, case.memory
    first, last = memory.visible(record, record.stamp)
    for moment in range(first, last + 1):
        if line_at(memory, moment, record.line) == record.data:
            return
    newest = line_at(memory, last, record.line)
    expected, found = first_difference(newest, record.data)
    raise NotAllowed("Refill", expected, found)


def line_at(memory, moment, line):
    """The 64 bytes of a line at a moment."""
    return bytes(memory.byte(moment, line_of(line) + place) for place in range(64))


def first_difference(expected, found):
    """The first pair of items that differ, or None."""
    return next((pair for pair in zip(expected, found) if pair[0] != pair[1]), None)


def check_state(case):
    """A Regs or Csrs record shows the state of the reference."""
    arch, record = case.arch, case.record
    if record.kind == "Regs":
        expected = [arch.pc] + arch.x[1:]
        found = [record.pc] + list(record.registers)
    else:
        expected = [arch.mode] + list(arch.csrs.kept.values())
        found = [record.mode] + list(record.registers)
    difference = first_difference(expected, found)
    if difference is not None:
        raise NotAllowed("State", *difference)
