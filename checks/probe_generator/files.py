"""Whole probe files of records that may be unlawful, which the package's writer refuses."""

from difftest_probes.records import KINDS
from difftest_probes.spelling import Header, spell, spell_end, spell_short

__all__ = ["Header", "KIND_OF_NAME", "spell_file", "spell_records"]

KIND_OF_NAME = {kind.kind: kind for kind in KINDS}


def spell_records(header, records):
    """The bytes of each record, in the header's version."""
    if header.version == 1:
        return [spell(record) for record in records]
    pieces, last = [], {}
    for record in records:
        pieces.append(spell_short(record, last.get(record.hart, 0)))
        last[record.hart] = record.stamp
    return pieces


def spell_file(header, records):
    """A whole probe file."""
    return b"".join([header.spell(), *spell_records(header, records), spell_end(len(records))])
