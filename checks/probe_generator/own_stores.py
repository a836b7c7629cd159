"""One hart's own stores, from their record until a drain takes them."""

from difftest_probes.isa.fields import LINE_BYTES, line_of


class OwnStore:
    """A store, its barrier number, and the key of the drain that took it."""

    __slots__ = ("seq", "address", "width", "value", "barrier", "drained")

    def __init__(self, seq, address, width, value, barrier):
        self.seq, self.address, self.width, self.value = seq, address, width, value
        self.barrier = barrier
        self.drained = None

    def waits(self, at):
        """Whether the store is undrained for this cycle."""
        return self.drained is None or self.drained[0] > at


class OwnStores:
    """The stores of one hart in order, with the marks of its fences."""

    def __init__(self):
        self.stores = []
        self.barrier = 0
        self.before_reads = 0
        self.before_writes = 0

    def add(self, seq, address, width, value):
        """Notes a new store."""
        self.stores.append(OwnStore(seq, address, width, value, self.barrier))

    def fence(self, ww, wr):
        """Notes a fence."""
        if ww:
            self.barrier += 1
            self.before_writes = len(self.stores)
        if wr:
            self.before_reads = len(self.stores)

    def waiting(self):
        """All stores that no drain has taken."""
        return [store for store in self.stores if store.drained is None]

    def line_waits(self, line):
        """Whether a store of the line still waits."""
        return any(store.drained is None and line_of(store.address) == line
                   for store in self.stores)

    def some_wait(self, first):
        """Whether one of the first so many stores still waits."""
        return any(store.drained is None for store in self.stores[:first])

    def reads_from(self):
        """The least cycle at which a load meets the last write-before-read fence."""
        stamps = [store.drained[0] for store in self.stores[:self.before_reads] if store.drained]
        return max(stamps, default=0)

    def forward(self, address, at):
        """The youngest store that covers the byte and waits for cycle `at`, or None."""
        for store in reversed(self.stores):
            if store.address <= address < store.address + store.width and store.waits(at):
                return store
        return None

    def choices(self, unbarred):
        """The allowed drains as (line, greatest number of stores); all where unbarred."""
        waiting = self.waiting()
        lines = {}
        for store in waiting:
            lines.setdefault(line_of(store.address), []).append(store)
        answer = []
        for line, stores in lines.items():
            limit = min((store.barrier for store in waiting if line_of(store.address) != line),
                        default=None)
            free = unbarred or limit is None
            count = sum(free or store.barrier <= limit for store in stores)
            if count:
                answer.append((line, count))
        return answer

    def drain(self, key, line, count):
        """Takes the oldest stores of the line; gives mask and bytes."""
        mask, data = 0, bytearray(LINE_BYTES)
        taken = [s for s in self.stores if s.drained is None and line_of(s.address) == line]
        for store in taken[:count]:
            store.drained = key
            offset = store.address - line
            data[offset:offset + store.width] = store.value.to_bytes(store.width, "little")
            mask |= ((1 << store.width) - 1) << offset
        return mask, bytes(data)
