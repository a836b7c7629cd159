"""Small changes of a list of records, most of which a checker must notice."""

from dataclasses import replace

from difftest_probes.isa.fields import ALL_ONES, LINE_BYTES, RAM_START
from difftest_probes.records import Commit, Load, Trap, record_of
from .files import KIND_OF_NAME

INTERESTING = (0, 1, 2, 7, 64, 0x80000000, 0x84000000, ALL_ONES, 1 << 63, 0x80002000, 12, 13)


def _other_number(random, value, size):
    """A number of `size` bytes that isn't this one."""
    bits = 8 * size
    while True:
        new = random.choice((
            value + 1, value - 1, value ^ 1 << random.randrange(bits), random.getrandbits(bits),
            random.choice(INTERESTING), value + 4, value ^ 2, value + 64, value - 8))
        new &= (1 << bits) - 1
        if new != value:
            return new


def _pick(random, records, *kinds):
    """The place of a random record of these kinds, or None."""
    places = [n for n, record in enumerate(records) if not kinds or record.kind in kinds]
    if not places:
        return None
    # Later records leave more to be judged before the change.
    return max(random.choice(places), random.choice(places))


def _replace(records, place, **changes):
    """Puts a changed copy at the place."""
    records[place] = replace(records[place], **changes)


def _moved(record, stamp, step=0):
    """The record with another stamp; a load's cycle moves by the step, and is never above it."""
    if isinstance(record, Load):
        return replace(record, stamp=stamp, at=max(0, min(record.at + step, stamp)))
    return replace(record, stamp=stamp)


def _change(random, records, kinds, name):
    """Changes one field of one record; the sizes are those of the file."""
    place = _pick(random, records, *kinds)
    if place is None:
        return False
    record = records[place]
    sizes = dict(record.numbers)
    if name not in sizes:
        return False
    _replace(records, place, **{name: _other_number(random, getattr(record, name), sizes[name])})
    return True


def _field(kinds, *names):
    return lambda random, records: _change(random, records, kinds, random.choice(names))


RETIRED = ("Commit", "Load", "Store", "Atomic")
SIDE_KINDS = ("Drain", "Refill", "Regs", "Csrs")


def change_bits(random, records):
    """Changes the instruction bits of a record."""
    place = _pick(random, records, *RETIRED, "Trap")
    if place is None:
        return False
    bits = records[place].bits
    if bits & 3 == 3:
        new = bits ^ 1 << random.randrange(2, 32)
    else:
        new = bits ^ 1 << random.randrange(16)
        if new & 3 == 3:
            new |= random.getrandbits(16) << 16
    _replace(records, place, bits=new)
    return True


def change_byte(random, records):
    """Changes one byte of a drain or refill."""
    place = _pick(random, records, "Drain", "Refill")
    if place is None:
        return False
    data = bytearray(records[place].content)
    mask = getattr(records[place], "mask", ALL_ONES)
    covered = [n for n in range(LINE_BYTES) if mask >> n & 1]
    data[random.choice(covered)] ^= 1 << random.randrange(8)
    _replace(records, place, content=bytes(data))
    return True


def change_mask(random, records):
    """Adds a byte to a drain's mask, or takes one out."""
    place = _pick(random, records, "Drain")
    if place is None:
        return False
    record = records[place]
    offset = random.randrange(LINE_BYTES)
    mask = record.mask ^ 1 << offset or 1
    data = bytearray(record.content)
    for n in range(LINE_BYTES):
        data[n] = data[n] if mask >> n & 1 else 0
    _replace(records, place, mask=mask, content=bytes(data))
    return True


def change_line(random, records):
    """Moves a drain or refill to another line."""
    place = _pick(random, records, "Drain", "Refill")
    if place is None:
        return False
    line = records[place].line
    new = random.choice((line ^ 64, line ^ 128, RAM_START, 0x83FFFFC0))
    _replace(records, place, line=new)
    return new != line


def change_load(random, records):
    """Changes a loaded value within its width, or the cycle of a load."""
    place = _pick(random, records, "Load")
    if place is None:
        return False
    record = records[place]
    if random.random() < 0.5:
        at = random.choice((0, record.stamp, max(record.at - 1, 0),
                            random.randint(0, record.stamp)))
        changed = at != record.at
        _replace(records, place, at=at)
        return changed
    _replace(records, place, value=record.value ^ 1 << random.randrange(8))
    return True


def change_atomic(random, records):
    """Turns a conditional store's answer round, or changes a field of an atomic."""
    place = _pick(random, records, "Atomic")
    if place is None:
        return False
    record = records[place]
    sort = random.randrange(5)
    if sort == 0:
        _replace(records, place, wrote=1 - record.wrote, value=record.value ^ 1,
                 new=record.new if not record.wrote else 0)
    elif sort == 1:
        _replace(records, place, wrote=1 - record.wrote, new=0)
    elif sort == 2 and record.paddr % 8 == 0:
        width = 12 - record.width
        _replace(records, place, width=width, new=record.new & ((1 << 8 * width) - 1))
    elif sort == 3 and record.wrote:
        _replace(records, place, new=record.new ^ 1 << random.randrange(8 * record.width))
    else:
        _replace(records, place, value=_other_number(random, record.value, 8))
    return True


def change_atomic_place(random, records):
    """Moves an atomic to another address."""
    place = _pick(random, records, "Atomic")
    if place is None:
        return False
    _replace(records, place, paddr=records[place].paddr ^ random.choice((8, 64, 4096)))
    return True


def change_count(random, records):
    """Changes how many stores a drain takes."""
    place = _pick(random, records, "Drain")
    if place is None:
        return False
    count = records[place].count
    other = random.choice((count + 1, max(count - 1, 1), 65535, count + 2))
    _replace(records, place, count=min(other, 65535))
    return True


def change_registers(random, records):
    """Changes one number of a record of registers or control registers."""
    place = _pick(random, records, "Regs", "Csrs")
    if place is None:
        return False
    record = records[place]
    numbers = record.numbers
    name, size = random.choice(numbers)
    if name == "mode":
        new = random.choice([mode for mode in (0, 1, 3) if mode != record.mode])
    else:
        new = _other_number(random, dict(zip(dict(numbers), record.values()))[name], size)
    values = tuple(new if number == name else value
                   for (number, _), value in zip(numbers, record.values()))
    records[place] = record_of(type(record), record.hart, record.stamp, values)
    return True


def change_trap(random, records):
    """Changes cause, tval, pc or bits of a trap, now and then into or out of an interrupt."""
    place = _pick(random, records, "Trap")
    if place is None:
        return False
    record = records[place]
    sort = random.randrange(5)
    if sort == 0:
        _replace(records, place, tval=_other_number(random, record.tval, 8))
    elif sort == 1:
        code = random.choice((1, 3, 5, 7, 9, 11, 2, 63, 64))
        _replace(records, place, cause=1 << 63 | code, bits=0, tval=0)
    elif sort == 2:
        _replace(records, place, bits=0)
        return record.bits != 0
    else:
        causes = [n for n in (1, 2, 3, 4, 5, 6, 7, 8, 9, 11, 12, 13, 15, 0, 10)
                  if n != record.cause]
        _replace(records, place, cause=random.choice(causes))
    return True


def make_trap(random, records):
    """Puts a trap in the place of a retired instruction, or an instruction for a trap."""
    place = _pick(random, records, *RETIRED, "Trap")
    if place is None:
        return False
    old = records[place]
    pc, bits = old.pc, old.bits
    if old.kind == "Trap":
        if bits & 3 != 3 and bits > 0xFFFF:
            return False
        records[place] = Commit(old.hart, old.stamp, pc=pc, bits=bits, value=0)
    else:
        records[place] = Trap(old.hart, old.stamp, pc=pc, bits=bits,
                              cause=random.choice((2, 3, 4, 5, 8, 12, 13)), tval=0)
    return True


def change_kind(random, records):
    """Retires an instruction as another kind of record."""
    place = _pick(random, records, *RETIRED)
    if place is None:
        return False
    old = records[place]
    fields = {"value": 0, "at": old.stamp, "paddr": 0x80002000, "width": 8, "wrote": 0, "new": 0}
    fields.update(zip(dict(old.numbers), old.values()))
    kind = KIND_OF_NAME[random.choice([kind for kind in RETIRED if kind != old.kind])]
    if fields["paddr"] < RAM_START:
        fields["paddr"] = 0x80002000
    if kind.kind == "Atomic":
        fields["paddr"] &= -8
    records[place] = kind(old.hart, old.stamp, *[fields[name] for name, _ in kind.numbers])
    return True


def delete(random, records):
    """Leaves a record out."""
    place = _pick(random, records, *random.choice(((), ("Drain",), ("Drain", "Atomic", "Store"))))
    if place is None:
        return False
    del records[place]
    return True


def double(random, records):
    """Puts a record twice."""
    place = _pick(random, records, *random.choice(((), ("Drain", "Store", "Beat", "Refill"))))
    if place is None:
        return False
    records.insert(place, records[place])
    return True


def swap(random, records):
    """Changes the order of two neighbours of one hart, each with the other's stamp."""
    # Two instructions in the wrong order only show a wrong pc, so mostly one is something else.
    place = _pick(random, records, *random.choice(((), SIDE_KINDS, SIDE_KINDS, SIDE_KINDS)))
    if place is None:
        return False
    first = records[place]
    later = [n for n in range(place + 1, len(records)) if records[n].hart == first.hart]
    if not later:
        return False
    second = records[later[0]]
    records[place] = _moved(second, first.stamp)
    records[later[0]] = _moved(first, second.stamp)
    return True


def move(random, records):
    """Gives a record another stamp between those of its hart's neighbours."""
    place = _pick(random, records, *random.choice(((), ("Drain",), ("Load", "Atomic"))))
    if place is None:
        return False
    record = records[place]
    own = [n for n, other in enumerate(records) if other.hart == record.hart]
    mine = own.index(place)
    low = records[own[mine - 1]].stamp if mine else 0
    high = records[own[mine + 1]].stamp if mine + 1 < len(own) else record.stamp + 5
    stamp = random.choice((low, min(high, ALL_ONES)))
    records[place] = _moved(record, stamp)
    return stamp != record.stamp


def shift_hart(random, records):
    """Moves all records of one hart by a few cycles."""
    hart = records[_pick(random, records)].hart if records else 0
    step = random.choice((-20, -3, -1, 1, 3, 20))
    stamps = [record.stamp for record in records if record.hart == hart]
    if not stamps or min(stamps) + step < 0 or max(stamps) + step > ALL_ONES:
        return False
    for place, record in enumerate(records):
        if record.hart == hart:
            records[place] = _moved(record, record.stamp + step, step)
    return True


MUTATIONS = {
    "pc": _field(RETIRED + ("Trap",), "pc"),
    "value": _field(("Commit", "Load", "Store", "Atomic"), "value"),
    "commit value": _field(("Commit",), "value"),
    "store": _field(("Store",), "value", "value", "paddr"),
    "paddr": _field(("Load", "Store"), "paddr"),
    "bits": change_bits, "byte": change_byte, "mask": change_mask, "line": change_line,
    "count": change_count, "load": change_load, "atomic": change_atomic,
    "atomic place": change_atomic_place, "registers": change_registers, "trap": change_trap,
    "make trap": make_trap, "kind": change_kind, "delete": delete, "double": double, "swap": swap,
    "move": move, "shift": shift_hart,
}


SELDOM = ("pc", "value", "commit value", "bits", "shift", "double")
WEIGHTS = tuple(1 if name in SELDOM else 2 for name in MUTATIONS)


def mutate(random, records, times):
    """Changes the list in place; gives the names of the changes that were made."""
    made = []
    for _ in range(20):
        if len(made) == times or not records:
            break
        name = random.choices(tuple(MUTATIONS), WEIGHTS)[0]
        if MUTATIONS[name](random, records):
            made.append(name)
    return made
