"""A device that takes every liberty that the rules leave: when loads read, when stores drain,
which moment translates and fetches, and how many records share a cycle."""

from difftest_probes.isa.fields import ALL_ONES, INTERRUPT_CODES, INTERRUPT_FLAG, LINE_BYTES, wrap
from difftest_probes.isa.walking import FETCH, cause_of, settle, view_of, walk
from .files import KIND_OF_NAME
from .history import History
from .loose_hart import LooseHart
from .loose_memory import MemoryAccess


class LooseDevice(MemoryAccess):
    """Harts over a history of writes; the weaver chooses code where nothing was read yet."""

    def __init__(self, random, harts, image, weaver, manners, slip=None):
        self.random = random
        self.history = History(image, harts)
        self.harts = [LooseHart(number, weaver.wide) for number in range(harts)]
        self.weaver = weaver
        self.manners = manners
        # The rule that this device breaks now and then, if any.
        self.slip = slip
        self.stamp = manners["first stamp"]
        self.out = []

    def run(self, records):
        """Runs until so many records came or every hart is stuck."""
        for _ in range(40 * records):
            if len(self.out) >= records or all(hart.stuck for hart in self.harts):
                break
            order = list(self.harts)
            if self.random.random() < self.manners["shuffle"]:
                self.random.shuffle(order)
            for hart in order:
                for _ in range(self.random.choice(self.manners["turns"])):
                    if not hart.stuck:
                        self._turn(hart)
            self.stamp = min(self.stamp + self.random.choice(self.manners["steps"]),
                             self.manners["last stamp"])
        return self.out

    def _key(self, hart):
        return self.stamp, hart.number, hart.seq

    def _emit(self, hart, record):
        self.out.append(record)
        hart.seq += 1

    def _record(self, hart, kind, **body):
        self._emit(hart, KIND_OF_NAME[kind](hart.number, self.stamp, **body))

    def _retire(self, hart, kind, bits, plan, **body):
        self._record(hart, kind, pc=hart.state.pc, bits=bits, **body)
        hart.state.pc = plan.next
        hart.fruitless = 0
        hart.repeated += 1

    def _chance(self, name):
        return self.random.random() < self.manners[name]

    def _slips(self, rule):
        """Whether this rule is broken this time."""
        return rule == self.slip and self.random.random() < 0.4

    def _turn(self, hart):
        enabled = hart.state.csrs.enabled_interrupts(hart.state.mode)
        if self.slip == "interrupt" and self.random.random() < 0.03:
            enabled = sum(1 << code for code in INTERRUPT_CODES) ^ enabled
        if enabled and self._chance("interrupt"):
            codes = [code for code in range(12) if enabled >> code & 1]
            self._trap(hart, 0, INTERRUPT_FLAG | self.random.choice(codes), 0)
        elif self._chance("drain") and hart.stores.waiting():
            self._drain(hart)
        elif self._chance("remark"):
            self._remark(hart)
        else:
            self._instruction(hart)

    def _remark(self, hart):
        """A record that changes nothing."""
        kind = self.random.choice(("Regs", "Csrs", "Beat", "Refill", "Refill"))
        state = hart.state
        if kind == "Regs":
            self._record(hart, kind, pc=state.pc, x=tuple(state.x[1:]))
        elif kind == "Csrs":
            self._record(hart, kind, mode=state.mode, v=tuple(state.csrs.values()))
        elif kind == "Beat":
            self._record(hart, "Beat")
        else:
            line = self.weaver.refill_line()
            moment = self._moment(self.history.least(self._key(hart), self.stamp))
            data = bytearray(self.history.byte(moment, line + n)[0] for n in range(LINE_BYTES))
            if self._slips("refill"):
                data[self.random.randrange(LINE_BYTES)] ^= 1
            self._record(hart, "Refill", line=line, content=bytes(data))

    def _moment(self, least):
        """A moment from the least one to the greatest visible one; it is used from now on."""
        greatest = self.history.greatest(self.stamp)
        if self._chance("stale"):
            moment = self.random.choice((least, self.random.randint(least, greatest)))
        else:
            moment = greatest
        self.history.freeze(moment)
        return moment

    def _drain(self, hart):
        """One allowed drain, where the cycle still has room for a write of this hart."""
        key = self._key(hart)
        choices = hart.stores.choices(self._slips("barrier"))
        if not choices or not self.history.may_write(key):
            return
        line, most = self.random.choice(choices)
        count = most if self._chance("whole drain") else self.random.randint(1, most)
        mask, data = hart.stores.drain(key, line, count)
        pieces = [(line + n, data[n]) for n in range(LINE_BYTES) if mask >> n & 1]
        self.history.add(key, pieces)
        for address, _ in pieces:
            hart.floor[address] = key
        self._record(hart, "Drain", line=line, mask=mask, count=count, content=bytes(data))

    def _trap(self, hart, bits, cause, tval):
        if self._slips("tval"):
            tval += self.random.choice((1, 2, -2)) if tval < ALL_ONES - 2 else -1
            tval = max(tval, 0)
        if self._chance("plain tval"):
            tval = 0
        self._record(hart, "Trap", pc=hart.state.pc, bits=bits, cause=cause, tval=tval)
        hart.state.trap(cause, tval)
        hart.fruitless += 1

    def _translate(self, hart, address, access, ram_only):
        view = view_of(hart.state.csrs, hart.state.mode, access)
        if not view.on:
            return settle(address, ram_only)
        since = [key for key in (hart.flush_all, hart.flush_pages.get(address >> 12)) if key]
        if self._slips("flush"):
            since = []
        least = self.history.least(max(since), max(since)[0]) if since else 0
        moment = self._moment(least)

        def read_entry(place):
            self.weaver.walked(place, view.mode)
            return self.history.number(moment, place, 8)
        return settle(walk(read_entry, address, access, view), ram_only)

    def _fetch(self, hart):
        """The fetched bits and None, or the bits so far and (cause, address)."""
        bits = 0
        for part in (0, 1):
            address = wrap(hart.state.pc + 2 * part)
            place = self._translate(hart, address, FETCH, True)
            if isinstance(place, str):
                return bits, (cause_of(place, FETCH), address)
            bits |= self._half(hart, place, part) << 16 * part
            if bits & 3 != 3:
                break
        return bits, None

    def _half(self, hart, place, part):
        since = None if self._slips("fence.i") else hart.last_fence_i
        moment = self._moment(self.history.least(since, since[0]) if since else 0)
        covered = self.history.written(place, moment) or self.history.written(place + 1, moment)
        if not covered and self.history.image.is_open(place, 2):
            if part == 0:
                word = self.weaver.next_word(hart.state, place)
                hart.upper_half = word >> 16
                hart.repeated = 0
                half = word & 0xFFFF
            else:
                half = hart.upper_half or 0
            self.history.image.define(place, half, 2)
        return self.history.number(moment, place, 2)

    def _instruction(self, hart):
        bits, fault = self._fetch(hart)
        if fault:
            self._trap(hart, bits, *fault)
            return
        plan = hart.state.plan(bits)
        if plan.sort == "raise":
            if self._slips("raise"):
                self._ignore(hart, bits)
                return
            self._trap(hart, bits, plan.cause, plan.tval)
            return
        getattr(self, "_do_" + plan.sort)(hart, bits, plan)

    def _ignore(self, hart, bits):
        """Retires an instruction that must trap, as if it did nothing."""
        self._record(hart, "Commit", pc=hart.state.pc, bits=bits, value=0)
        hart.state.pc = wrap(hart.state.pc + (4 if bits & 3 == 3 else 2))

    def _do_done(self, hart, bits, plan):
        self._retire(hart, "Commit", bits, plan, value=plan.value)
        hart.state.set_register(plan.rd, plan.value)

    def _do_fence(self, hart, bits, plan):
        hart.stores.fence(plan.ww, plan.wr)
        if plan.rr:
            hart.order = max(hart.order, hart.latest_read)
        self._retire(hart, "Commit", bits, plan, value=0)

    def _do_fence_i(self, hart, bits, plan):
        if hart.stores.waiting() and not self._slips("fence waits"):
            self._drain(hart)
            return
        hart.last_fence_i = self._key(hart)
        self._retire(hart, "Commit", bits, plan, value=0)

    def _do_sfence(self, hart, bits, plan):
        if hart.stores.waiting() and not self._slips("fence waits"):
            self._drain(hart)
            return
        if plan.all:
            hart.flush_all = self._key(hart)
        elif plan.page is not None:
            hart.flush_pages[plan.page] = self._key(hart)
        self._retire(hart, "Commit", bits, plan, value=0)

    def _do_return(self, hart, bits, plan):
        self._retire(hart, "Commit", bits, plan, value=0)
        hart.state.go_back(plan)

    def _counter(self, floor):
        if self._slips("counter"):
            return max(0, floor - self.random.choice((1, 1, 100)))
        step = self.random.choice((0, 1, self.random.randrange(1000)))
        if self.random.random() < 0.02:
            step = self.random.getrandbits(64)
        return min(floor + step, ALL_ONES)

    def _do_csr(self, hart, bits, plan):
        csrs, number = hart.state.csrs, plan.number
        sort, old = "value", 0
        if plan.reads:
            sort, old = csrs.read(hart.state.mode, hart.number, number)
        if sort == "counter":
            old = self._read_counter(hart, plan, old)
        elif sort == "pending":
            mask = 0xFFFF if self._slips("adopt") else old
            old = self.random.getrandbits(16) & mask if plan.rd else 0
        if plan.writes:
            new = hart.state.new_csr_value(plan, old)
            if sort == "counter" and plan.op == "set" and not plan.rd:
                new = max(old, plan.value)
            csrs.write(number, new)
        value = old if plan.rd and plan.reads else 0
        self._retire(hart, "Commit", bits, plan, value=value)
        hart.state.set_register(plan.rd, value)

    def _read_counter(self, hart, plan, counter):
        """The value read; without a target register the floor, or 0 where bits are cleared."""
        floors = hart.state.csrs.floors
        if plan.rd:
            floors[counter] = self._counter(floors[counter])
        elif plan.op == "clear":
            return 0
        return floors[counter]
