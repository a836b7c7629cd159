"""The checks of Drain records: how many stores, in which order, which bytes."""

from .judgement import first_difference, require


def judge_drain(case):
    """A drain takes the oldest waiting stores of its line."""
    record = case.record
    waiting = case.history.undrained(record.stamp)
    on_line = [store for store in waiting if store.line == record.line]
    require(record.count <= len(on_line), "DrainCount", len(on_line), record.count)
    taken = on_line[: record.count]
    check_barrier(record, waiting, taken)
    check_data(record, taken)
    case.history.drains.append(record)


def check_barrier(record, waiting, taken):
    """No store of another line from before a write fence is overtaken."""
    overtaken = [
        store
        for store in waiting
        if store.line != record.line and store.barrier < taken[-1].barrier
    ]
    if overtaken:
        require(False, "Barrier", overtaken[0].seq, record.seq)


def check_data(record, taken):
    """The mask and the bytes are those of the stores, younger over older."""
    merged = bytearray(64)
    mask = 0
    for store in taken:
        for address, byte in store.bytes().items():
            merged[address - record.line] = byte
            mask |= 1 << address - record.line
    require(mask == record.mask, "DrainData", mask, record.mask)
    difference = first_difference(merged, record.data)
    if difference is not None:
        require(False, "DrainData", *difference)
