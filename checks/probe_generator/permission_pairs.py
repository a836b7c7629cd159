"""Pairs of a permission file and a probe file, made by their numbers.

A directory gives lines to harts and takes them away as a coherent cache does, and harts write what they may
write. Most runs are then spoilt: an event is left out, moved, changed or doubled, a write is moved, or a byte
of the permission file is changed. Some have events and writes that follow no rule at all.
"""

from random import Random

from difftest_probes import Atomic, Beat, Drain, Header, Op, PermissionEvent, PermissionFile, Refill
from difftest_probes.records import RAM_END, RAM_START

from .files import spell_file

EVENT_BYTES, HEADER_BYTES = 18, 16
SWAP = 0x0875362F
# Of all pairs so many are left as the directory made them, follow no rule, or have a byte changed.
SOUND_PART, WILD_PART, BROKEN_PART = 0.3, 0.15, 0.15


class Directory:
    """What each hart holds of each line, and the events and writes so far."""

    def __init__(self, random, harts, lines):
        self.random, self.harts, self.lines = random, harts, lines
        self.cycle = random.choice((0, 1, 1000, (1 << 63) - 5))
        self.held = {}
        self.events, self.writes = [], []

    def tell(self, op, hart, line):
        """One event: the hart holds what it says from now on."""
        self.events.append(PermissionEvent(op, hart, self.cycle, line))
        if op == Op.REVOKE:
            self.held.pop((hart, line), None)
        else:
            self.held[hart, line] = op

    def wait(self):
        """Some cycles pass, or none."""
        self.cycle += self.random.choice((0, 0, 0, 1, 1, 2, 5))

    def others(self, hart, line):
        """The other harts that hold the line, in any order."""
        found = [other for other in range(self.harts) if other != hart and (other, line) in self.held]
        self.random.shuffle(found)
        return found

    def give(self, op, hart, line):
        """Takes the line from whom it has to be taken, and gives it."""
        for other in self.others(hart, line):
            if op == Op.GRANT_WRITE or self.held[other, line] == Op.GRANT_WRITE:
                down = op == Op.GRANT_READ and self.random.random() < 0.5
                self.tell(Op.GRANT_READ if down else Op.REVOKE, other, line)
        self.tell(op, hart, line)

    def step(self):
        """A hart asks for a line, writes it, or loses it."""
        hart, line = self.random.randrange(self.harts), self.random.choice(self.lines)
        choice = self.random.random()
        if choice < 0.25:
            self.give(Op.GRANT_READ, hart, line)
        elif choice < 0.8:
            if self.held.get((hart, line)) != Op.GRANT_WRITE:
                self.give(Op.GRANT_WRITE, hart, line)
            self.writes.append((self.cycle, hart, line))
        else:
            self.tell(Op.REVOKE, hart, line)
        self.wait()


def lines_of(random):
    """Some lines of RAM, near each other or far, so that they are of the same worker or of others."""
    first = random.choice((RAM_START, RAM_START + 0x100, RAM_END - 64 * 64))
    step = 64 * random.choice((1, 1, 3, 8))
    return [first + step * number for number in range(random.choice((1, 2, 3, 8)))]


def wild(random, directory):
    """Events and writes that follow no rule, but that stamps do not fall."""
    for _ in range(random.choice((3, 10, 40))):
        hart, line = random.randrange(directory.harts), random.choice(directory.lines)
        directory.tell(random.choice((Op.GRANT_READ, Op.GRANT_WRITE, Op.REVOKE, Op.REVOKE)), hart, line)
        if random.random() < 0.3:
            directory.writes.append((directory.cycle, random.randrange(directory.harts), line))
        directory.wait()


def in_order(events):
    """The events with stamps that do not fall: one that was moved takes its neighbour's."""
    made, last = [], 0
    for event in events:
        last = max(last, event.stamp)
        made.append(event._replace(stamp=last))
    return made


def spoil_events(random, events):
    """The name of a change, and the events with it."""
    place = random.randrange(len(events))
    event = events[place]
    changed = {
        "left out": [],
        "earlier": [event._replace(stamp=max(0, event.stamp - random.randrange(1, 4)))],
        "later": [event._replace(stamp=event.stamp + random.randrange(1, 4))],
        "another op": [event._replace(op=random.choice(list(Op)))],
        "another line": [event._replace(line=RAM_START + 64 * random.randrange(8))],
        "doubled": [event, event],
    }
    name = random.choice([*changed, "swapped"])
    if name == "swapped":
        other = max(0, place - 1)
        events = [*events[:other], *reversed(events[other : place + 1]), *events[place + 1 :]]
    else:
        events = [*events[:place], *changed[name], *events[place + 1 :]]
    if name == "earlier":
        events = sorted(events, key=lambda each: each.stamp)
    return name, in_order(events)


def spoil_writes(random, writes, harts):
    """The name of a change, and the writes with it."""
    place = random.randrange(len(writes))
    stamp, hart, line = writes[place]
    changed = {
        "write earlier": (max(0, stamp - random.randrange(1, 4)), hart, line),
        "write later": (stamp + random.randrange(1, 4), hart, line),
        "write of another hart": (stamp, random.randrange(harts), line),
        "write beside": (stamp, hart, line ^ 64),
    }
    name = random.choice(list(changed))
    return name, [*writes[:place], changed[name], *writes[place + 1 :]]


def record_of(random, stamp, hart, line):
    """A drain or an atomic that writes the line."""
    if random.random() < 0.7:
        place = random.randrange(64)
        content = bytes(place) + b"\7" + bytes(63 - place)
        return Drain(hart, stamp, line, 1 << place, 1, content)
    width = random.choice((4, 8))
    return Atomic(hart, stamp, RAM_START, SWAP, 0, line + width * random.randrange(64 // width), width, 1, 7)


def probes_of(random, harts, writes):
    """A probe file with these writes among records that write nothing; harts stand in any order."""
    hart_records = [[] for _ in range(harts)]
    for stamp, hart, line in sorted(writes):
        if random.random() < 0.3:
            hart_records[hart].append(random.choice((Beat(hart, stamp), Refill(hart, stamp, line, bytes(64)))))
        hart_records[hart].append(record_of(random, stamp, hart, line))
    records = []
    while any(hart_records):
        own = random.choice([each for each in hart_records if each])
        records.append(own.pop(0))
    return spell_file(Header(harts, random.choice((1, 2)), random.random() < 0.2), records)


def break_bytes(random, data):
    """The name of a fault, and the bytes with it."""
    choice = random.randrange(3)
    if choice == 0:
        length = random.randrange(len(data))
        return f"cut to {length}", data[:length]
    if choice == 1:
        return "more behind the end", data + bytes(random.choice((1, 9, 18)))
    place = random.choice((random.randrange(HEADER_BYTES), random.randrange(len(data)), len(data) - 1 - random.randrange(9)))
    return f"byte {place} changed", data[:place] + bytes([random.randrange(256)]) + data[place + 1 :]


def spoil(random, directory, harts):
    """Changes some events and writes, and says which."""
    names = []
    for _ in range(random.choice((1, 1, 1, 2, 3))):
        if directory.writes and random.random() < 0.3:
            name, directory.writes = spoil_writes(random, directory.writes, harts)
            names.append(name)
        elif directory.events:
            name, directory.events = spoil_events(random, directory.events)
            names.append(name)
    return " + ".join(names)


def make_permission_pair(number):
    """A description, the bytes of the permission file and those of the probe file of this number."""
    random = Random(f"permissions {number}")
    harts = random.choice((1, 2, 2, 3, 4, 8))
    directory = Directory(random, harts, lines_of(random))
    part = random.random()
    if part < WILD_PART:
        name = "wild"
        wild(random, directory)
    else:
        for _ in range(random.choice((0, 5, 20, 60, 200))):
            directory.step()
        is_sound = part < WILD_PART + SOUND_PART
        name = "sound" if is_sound else spoil(random, directory, harts)
    probes = probes_of(random, harts, directory.writes)
    listed = random.choice((harts, harts, 8)) if random.random() < 0.9 else max(1, harts - 1)
    events = [event for event in directory.events if event.hart < listed]
    data = PermissionFile(listed, tuple(events)).spell()
    if name != "sound" and random.random() < BROKEN_PART:
        broken, data = break_bytes(random, data)
        name = f"{name}, {broken}"
    elif listed < harts:
        name += f", harts {listed} of {harts}"
    return name, data, probes
