"""Loads, stores and atomics of the loose device."""

from difftest_probes.isa.fields import in_ram, line_of, sign_extend
from difftest_probes.isa.walking import LOAD, STORE, cause_of
from .arithmetic import amo, extend


class MemoryAccess:
    """The part of the device that reads and writes data."""

    def _place(self, hart, bits, plan, access, ram_only):
        """The physical address of a data access, or None after its trap."""
        answer = self._translate(hart, plan.va, access, ram_only)
        if isinstance(answer, str):
            self._trap(hart, bits, cause_of(answer, access), plan.va)
            return None
        return answer

    def _do_load(self, hart, bits, plan):
        if hart.stores.some_wait(hart.stores.before_reads) and not self._slips("order"):
            self._drain(hart)
            return
        place = self._place(hart, bits, plan, LOAD, False)
        if place is None:
            return
        if in_ram(place):
            at, raw = self._read(hart, place, plan.width)
            hart.latest_read = max(hart.latest_read, at)
        else:
            at, raw = self.random.randint(0, self.stamp), self.random.getrandbits(64)
        value = extend(plan.width, plan.signed, raw)
        if not in_ram(place) and self._slips("adopt"):
            value ^= 1 << self.random.randrange(64)
        self._retire(hart, "Load", bits, plan, value=value, at=at, paddr=place)
        hart.state.set_register(plan.rd, value)

    def _cycles(self, hart):
        """Cycles to try for a load; the last one always serves."""
        lowest = max(hart.order, hart.stores.reads_from())
        if self._slips("order"):
            return [self.random.randint(0, max(lowest, 1) - 1), self.stamp]
        answer = []
        if self._chance("early"):
            answer = [self.random.randint(lowest, self.stamp) for _ in range(2)]
            recent = [key[0] for key in self.history.keys[-6:]]
            answer += [at for at in recent if lowest <= at <= self.stamp][:2]
            self.random.shuffle(answer)
        return answer + [self.stamp]

    def _read(self, hart, place, width):
        """A cycle and the raw value of a load by a moment that fits."""
        key = self._key(hart)
        for at in self._cycles(hart):
            least, greatest = self.history.least(key, at), self.history.greatest(at)
            tries = [self.random.randint(least, greatest), least] if self._chance("stale") else []
            for moment in tries + [greatest]:
                raw = self._try(hart, place, width, at, moment)
                if raw is not None:
                    self.history.freeze(moment)
                    return at, raw
        # The greatest moment of the present cycle always fits, unless a rule was broken before.
        assert self.slip, "no moment fits the load"
        return at, self.history.number(greatest, place, width)

    def _try(self, hart, place, width, at, moment):
        """The raw value of a load by this moment, or None where a byte is below its floor."""
        raw, sources = 0, []
        unforwarded, unfloored = self._slips("forward"), self._slips("floor")
        for n in range(width):
            address = place + n
            store = None if unforwarded else hart.stores.forward(address, at)
            if self._slips("torn"):
                moment = self.random.randint(self.history.least(self._key(hart), at), moment)
            if store:
                value = store.value >> 8 * (address - store.address) & 0xFF
                source = store.drained
                fits = source is None or source >= hart.floor.get(address, source)
            else:
                value, source = self.history.byte(moment, address)
                floor = hart.floor.get(address)
                fits = floor is None or source is not None and source >= floor
            if not fits and not unfloored and not self.slip == "torn":
                return None
            raw |= value << 8 * n
            sources.append((address, source))
        self._know(hart, sources)
        return raw

    def _know(self, hart, sources):
        for address, source in sources:
            if source is not None:
                hart.floor[address] = max(source, hart.floor.get(address, source))

    def _do_store(self, hart, bits, plan):
        place = self._place(hart, bits, plan, STORE, False)
        if place is None:
            return
        if in_ram(place):
            hart.stores.add(hart.seq, place, plan.width, plan.value)
        self._retire(hart, "Store", bits, plan, paddr=place, value=plan.value)

    def _do_atomic(self, hart, bits, plan):
        place = self._place(hart, bits, plan, LOAD if plan.op == "lr" else STORE, True)
        if place is None:
            return
        stores = hart.stores
        succeeds = plan.op != "lr" and (plan.op != "sc" or self._sc_succeeds(hart, place))
        failed = plan.op == "sc" and not succeeds
        waits = (stores.line_waits(line_of(place))
                 or plan.rl and not failed and stores.waiting()
                 or plan.op != "sc" and stores.some_wait(stores.before_reads)
                 or succeeds and stores.some_wait(stores.before_writes))
        if waits and not self._slips("atomic waits"):
            self._drain(hart)
        elif not succeeds or self.history.may_write(self._key(hart)):
            self._perform(hart, bits, plan, place, succeeds)

    def _sc_succeeds(self, hart, place):
        if self._slips("reservation"):
            return True
        if not hart.reserved or hart.reserved[0] != line_of(place) or self._chance("sc fails"):
            return False
        return not self.history.others_between(line_of(place), hart.reserved[1],
                                               self._key(hart), hart.number)

    def _perform(self, hart, bits, plan, place, writes):
        key, width = self._key(hart), plan.width
        moment = self.history.before(key)
        if self._slips("atomic moment"):
            moment = max(0, moment - 1)
        found = [(place + n, *self.history.byte(moment, place + n)) for n in range(width)]
        old = sum(value << 8 * n for n, (_, value, _) in enumerate(found))
        value, new = sign_extend(old, 8 * width), 0
        if plan.op == "sc":
            value = 0 if writes else self.random.choice((1, 1, 2, self.random.getrandbits(64) | 1))
            new = plan.value & ((1 << 8 * width) - 1) if writes else 0
            if self._slips("sc value"):
                value = self.random.choice((0, 1, 5))
            hart.reserved = None
        else:
            self._know(hart, [(address, source) for address, _, source in found])
            hart.latest_read = max(hart.latest_read, self.stamp)
        if plan.op == "lr":
            hart.reserved = line_of(place), key
        elif plan.op != "sc":
            new = amo(plan.op, width, old, plan.value)
        if plan.aq and (plan.op != "sc" or writes):
            hart.order = max(hart.order, self.stamp)
        if writes:
            pieces = [(place + n, new >> 8 * n & 0xFF) for n in range(width)]
            self.history.add(key, pieces)
            for address, _ in pieces:
                hart.floor[address] = key
        self._retire(hart, "Atomic", bits, plan, value=value, paddr=place, width=width,
                     wrote=int(writes), new=new)
        hart.state.set_register(plan.rd, value)
        self.history.frozen = max(self.history.frozen, key)
