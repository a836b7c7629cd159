"""Where the bytes of a read come from, and which choice of moments fits."""

from .arithmetic import extend
from .hart_history import BELOW_ALL, Source


def bytes_at(memory, moment, address, width, forwarded):
    """The bytes and sources of a read at a moment, waiting stores first."""
    data, sources = [], []
    for place in range(address, address + width):
        store = forwarded.get(place)
        if store is None:
            data.append(memory.byte(moment, place))
            sources.append(Source(write=memory.source(moment, place)))
        else:
            data.append(store.bytes()[place])
            sources.append(Source(store=store.seq))
    return int.from_bytes(bytes(data), "little"), sources


def forwarding_stores(history, at):
    """For each byte that waiting stores cover, the youngest of these."""
    forwarded = {}
    for store in history.undrained(at):
        for address in store.bytes():
            forwarded[address] = store
    return forwarded


def floor_of(memory, history, record, address):
    """The least rank that a source of the byte may have."""
    own = [tuple(key) for key in memory.own_writes(record, address)]
    return max(own + history.earlier_ranks(address), default=BELOW_ALL)


def find_sources(memory, history, record, instruction):
    """The sources of a load by its least fitting moment, or None.

    Also gives the value that the greatest moment would give.
    """
    first, last = memory.visible(record, record.at)
    address, width = record.paddr, instruction.width
    forwarded = forwarding_stores(history, record.at)
    floors = [
        floor_of(memory, history, record, place)
        for place in range(address, address + width)
    ]
    for moment in range(first, last + 1):
        raw, sources = bytes_at(memory, moment, address, width, forwarded)
        if extend(width, instruction.signed, raw) != record.value:
            continue
        ranks = [history.rank(source) for source in sources]
        if all(rank >= floor for rank, floor in zip(ranks, floors)):
            return sources, record.value
    raw, _ = bytes_at(memory, last, address, width, forwarded)
    return None, extend(width, instruction.signed, raw)


def is_news(memory, history, record, address, sources):
    """Whether some byte comes from a write newer than all that the hart knew."""
    for place, source in enumerate(sources):
        if source.write is None:
            continue
        known = memory.own_writes(record, address + place) + [
            earlier.write
            for earlier in history.read_sources.get(address + place, ())
            if earlier.write is not None
        ]
        if all(key < source.write for key in known):
            return True
    return False
