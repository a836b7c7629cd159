"""The judgement of permissions: which hart holds which line, and which writes that covers.

It follows docs/PERMISSIONS.md. What a hart holds is asked of the list of its events on the line, for any
number of first events of the file; nothing is carried from one event to the next.
"""

from bisect import bisect_left, bisect_right
from collections import defaultdict

from .permission_file import GRANT_READ, GRANT_WRITE, REVOKE
from .records import line_of, writes_memory


class History:
    """The events of a permission file, by hart and line."""

    def __init__(self, events):
        self.stamps = [event.stamp for event in events]
        self.places = defaultdict(list)
        self.ops = defaultdict(list)
        for place, event in enumerate(events):
            self.places[event.hart, event.line].append(place)
            self.ops[event.hart, event.line].append(event.op)

    def held(self, count, hart, line):
        """The op of the last event of the hart on the line among the first `count` of the file."""
        own = hart, line
        if own not in self.places:
            return REVOKE
        earlier = bisect_left(self.places[own], count)
        return self.ops[own][earlier - 1] if earlier else REVOKE

    def moments(self, stamp, hart, line):
        """The numbers of first events that are moments of this cycle: those at which what the hart holds
        of the line may be another than before."""
        first, last = bisect_left(self.stamps, stamp), bisect_right(self.stamps, stamp)
        own = self.places.get((hart, line), [])
        changes = own[bisect_left(own, first) : bisect_left(own, last)]
        return [first] + [place + 1 for place in changes]


def excludes(op, held):
    """Whether a grant is against what another hart holds."""
    if op == GRANT_READ:
        return held == GRANT_WRITE
    return op == GRANT_WRITE and held != REVOKE


def first_violation(file, history):
    """The place of the first event that is a violation, with the least hart that it is against."""
    for place, event in enumerate(file.events):
        if event.op == REVOKE:
            continue
        for other in range(file.harts):
            if other != event.hart and excludes(event.op, history.held(place, other, event.line)):
                return place, other
    return None


def is_covered(history, key, line):
    """Whether the hart holds Write of the line at some moment of the write's cycle."""
    return any(
        history.held(count, key.hart, line) == GRANT_WRITE
        for count in history.moments(key.stamp, key.hart, line)
    )


def judge_permissions(permissions, probes):
    """The status and the line of the report."""
    history = History(permissions.events)
    violation = first_violation(permissions, history)
    if violation is not None:
        place, holder = violation
        event = permissions.events[place]
        where = f"event={place} hart={event.hart} line={event.line:016x} holder={holder}"
        return 12, f"COHERENCE FAIL {where}\n"
    writes = [
        (record.key, line_of(record.paddr if record.kind == "Atomic" else record.line))
        for record in probes.records
        if writes_memory(record)
    ]
    for key, line in sorted(writes):
        if not is_covered(history, key, line):
            return 12, f"COHERENCE FAIL write={key} line={line:016x}\n"
    return 0, f"COHERENCE PASS events={len(permissions.events)} writes={len(writes)}\n"
