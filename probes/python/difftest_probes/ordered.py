"""The records of a file in the order of their keys, with no more kept than is not settled."""

from __future__ import annotations

import heapq
from typing import Dict, Iterator, List, Tuple

from .reader import Reader
from .records import Key, Record

Row = Tuple[Key, Record]


def in_order(reader: Reader) -> Iterator[Row]:
    """The records with their keys, by stamp, hart and number.

    A record can come once the last stamps of all harts are above its own. Of a file in which a hart stops
    early, what other harts do after that is kept until the end.
    """
    counts: Dict[int, int] = {}
    waiting: List[Row] = []
    least = 0
    for record in reader:
        seq = counts.get(record.hart, 0)
        counts[record.hart] = seq + 1
        heapq.heappush(waiting, (Key(record.stamp, record.hart, seq), record))
        if waiting[0][0].stamp < least or len(waiting) % 64 == 0:
            least = min(reader.last_stamps)
            while waiting and waiting[0][0].stamp < least:
                yield heapq.heappop(waiting)
    while waiting:
        yield heapq.heappop(waiting)
