"""What a hart has done so far, kept as plain lists and asked as a whole."""

from dataclasses import dataclass, field

from .records import Key, in_ram, line_of

BELOW_ALL = (-1, 0, 0)
ABOVE_ALL = (1 << 64, 0, 0)


@dataclass(frozen=True)
class Source:
    """Where a byte came from: the image, a write, or an own waiting store."""

    write: Key | None = None
    store: int | None = None

    def __str__(self):
        if self.store is not None:
            return f"store.{self.store}"
        return "image" if self.write is None else str(self.write)


IMAGE = Source()


@dataclass(frozen=True)
class OwnStore:
    """A store to RAM, with the number of write fences before it."""

    seq: int
    address: int
    width: int
    value: int
    barrier: int

    @property
    def line(self):
        """The line that the store changes."""
        return line_of(self.address)

    def bytes(self):
        """The stored bytes, by address."""
        data = self.value.to_bytes(8, "little")
        return {self.address + place: data[place] for place in range(self.width)}


@dataclass(frozen=True)
class Fence:
    """A FENCE: what it orders, and the cycle that it asks later reads for."""

    seq: int
    write_write: bool
    write_read: bool
    read_read: bool
    asked: int


@dataclass
class History:
    """The judged records of one hart, sorted by what later checks ask."""

    stores: list = field(default_factory=list)
    drains: list = field(default_factory=list)
    fences: list = field(default_factory=list)
    read_cycles: list = field(default_factory=list)
    acquires: list = field(default_factory=list)
    read_sources: dict = field(default_factory=dict)
    fetch_fences: list = field(default_factory=list)
    page_fences: list = field(default_factory=list)
    reservation: tuple | None = None
    known_takers: dict = field(default_factory=dict)

    def add_store(self, record, width):
        """Notes a Store; one to a device never waits."""
        if not in_ram(record.paddr, width):
            return
        barrier = sum(1 for fence in self.fences if fence.write_write)
        self.stores.append(
            OwnStore(record.seq, record.paddr, width, record.value, barrier)
        )

    def add_fence(self, record, write_write, write_read, read_read):
        """Notes a FENCE with the greatest cycle of the reads before it."""
        asked = max(self.read_cycles, default=0) if read_read else 0
        self.fences.append(Fence(record.seq, write_write, write_read, read_read, asked))

    def add_read(self, cycle, address, sources):
        """Notes a read of RAM: its cycle, and where its bytes came from."""
        self.read_cycles.append(cycle)
        for place, source in enumerate(sources):
            self.read_sources.setdefault(address + place, []).append(source)

    def taker(self, store):
        """The drain that takes a store, or None where it still waits.

        Later records never change which drain took a store, so it is kept.
        """
        if store.seq not in self.known_takers:
            drain = self.find_taker(store)
            if drain is None:
                return None
            self.known_takers[store.seq] = drain
        return self.known_takers[store.seq]

    def find_taker(self, store):
        """Finds the first drain whose line's counts reach the store's number."""
        on_line = [other for other in self.stores if other.line == store.line]
        number = on_line.index(store) + 1
        taken = 0
        for drain in self.drains:
            if drain.line == store.line:
                taken += drain.count
                if taken >= number:
                    return drain
        return None

    def undrained(self, at):
        """The stores that wait still in a cycle, oldest first."""
        waiting = []
        for store in self.stores:
            drain = self.taker(store)
            if drain is None or drain.stamp > at:
                waiting.append(store)
        return waiting

    def undrained_before_fence(self, at, which):
        """The waiting stores before the last fence that orders `which`."""
        last = max(
            (fence.seq for fence in self.fences if getattr(fence, which)), default=-1
        )
        return [store for store in self.undrained(at) if store.seq < last]

    def order_floor(self):
        """The least cycle in which a later load may be performed."""
        asked = [fence.asked for fence in self.fences if fence.read_read]
        return max(asked + self.acquires, default=0)

    def rank(self, source):
        """How new a source is; a store ranks with the drain that took it."""
        if source.store is not None:
            drain = self.known_takers.get(source.store)
            if drain is None:
                store = next(own for own in self.stores if own.seq == source.store)
                drain = self.taker(store)
            return ABOVE_ALL if drain is None else tuple(drain.key)
        return BELOW_ALL if source.write is None else tuple(source.write)

    def earlier_ranks(self, address):
        """The ranks of the sources that earlier reads had for a byte."""
        return [self.rank(source) for source in self.read_sources.get(address, ())]

    def last_page_fence(self, address):
        """The last SFENCE.VMA that covers the page of an address, or None."""
        for record, page in reversed(self.page_fences):
            if page is None or page == address >> 12:
                return record
        return None
