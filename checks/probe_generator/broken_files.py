"""Changes of the bytes of a probe file that break its form."""

from dataclasses import replace

from difftest_probes.records import Atomic, Drain, Load, Trap
from difftest_probes.spelling import spell_end
from .files import spell_file, spell_records

# Fields whose bounds a single record may break, with a bad number.
BAD_FIELDS = (
    ("Commit", "bits", 0x00010001), ("Load", "bits", 0xFFFF0000), ("Store", "bits", 0x00010002),
    ("Trap", "bits", 0x10000), ("Csrs", "mode", 2), ("Csrs", "mode", 4),
    ("Atomic", "width", 2), ("Atomic", "width", 0), ("Atomic", "wrote", 2),
    ("Atomic", "paddr", 0x80000002), ("Atomic", "paddr", 0x7FFFFFF8),
    ("Atomic", "paddr", 0x84000000),
    ("Drain", "line", 0x80000020), ("Drain", "line", 0x84000000), ("Drain", "mask", 0),
    ("Drain", "count", 0), ("Refill", "line", 0x80000001), ("Refill", "line", 0x7FFFFFC0),
)


class WholeFile:
    """A file as its header, its records and their bytes."""

    def __init__(self, header, records):
        self.header = header
        self.records = records
        self.pieces = spell_records(header, records)
        self.data = spell_file(header, records)

    def start(self, place):
        """Where the record of this place begins."""
        return 16 + sum(len(piece) for piece in self.pieces[:place])

    def with_record(self, place, record):
        """The file with another record in this place."""
        return spell_file(self.header, self.records[:place] + [record] + self.records[place + 1:])

    def with_piece(self, place, piece):
        """The file with other bytes in the place of a record's."""
        pieces = self.pieces[:place] + [piece] + self.pieces[place + 1:]
        return b"".join([self.header.spell(), *pieces, spell_end(len(pieces))])

    def places(self, kind):
        """The places of the records of a kind."""
        return [place for place, record in enumerate(self.records) if isinstance(record, kind)]


def cut(random, file):
    """The file without its end."""
    return file.data[:random.randrange(len(file.data))]


def append(random, file):
    """The file with more bytes after it."""
    return file.data + random.choice((b"\0", b"\xff", file.data[-9:], file.data[16:46]))


def header(random, file):
    """A changed bit of the header."""
    changed = bytearray(file.data)
    changed[random.randrange(16)] ^= 1 << random.randrange(8)
    return bytes(changed)


def end_count(random, file):
    """An End record with a wrong count."""
    count = max(0, len(file.records) + random.choice((-1, 1, 2, 1 << 32)))
    return file.data[:-9] + spell_end(count)


def _with_byte(random, file, offset, value):
    """The file with another byte at an offset of some record."""
    if not file.records:
        return file.data[:-1]
    start = file.start(random.randrange(len(file.records))) + offset
    return file.data[:start] + bytes([value]) + file.data[start + 1:]


def tag(random, file):
    """A record with a tag that no kind has."""
    return _with_byte(random, file, 0, random.choice((0, 11, 12, 128, 254, 255)))


def hart(random, file):
    """A record of a hart that the header doesn't have."""
    return _with_byte(random, file, 1, random.choice((file.header.harts, 8, 255)))


def stamps(random, file):
    """A record with a stamp below the one before it of its hart, or in version 2 beyond all numbers."""
    places = [n for n, record in enumerate(file.records) if record.stamp]
    if not places:
        return file.data + b"\0"
    place = random.choice(places)
    old = file.records[place].stamp
    new = random.choice((0, old - 1, old >> 1)) if file.header.version == 1 else 1 << 64
    record = replace(file.records[place], stamp=new)
    if file.header.version == 1:
        return file.with_record(place, record)
    return file.with_piece(place, spell_records(file.header, file.records[:place] + [record])[-1])


def bound(random, file):
    """A record with a field beyond its bound."""
    choices = [(n, name, value) for n, record in enumerate(file.records)
               for kind, name, value in BAD_FIELDS if kind == record.kind]
    choices += [(n, "at", None) for n in file.places(Load)]
    if not choices:
        return file.data[:-3]
    place, name, value = random.choice(choices)
    record = file.records[place]
    if value is None:
        value = min(record.stamp + 1, (1 << 64) - 1)
    return file.with_record(place, replace(record, **{name: value}))


def outside_mask(random, file):
    """A drain with a byte that its mask doesn't have; in version 2 there is no such drain."""
    places = [place for place in file.places(Drain) if file.records[place].mask != (1 << 64) - 1]
    if not places:
        return file.data[:-9]
    place = random.choice(places)
    record = file.records[place]
    content = bytearray(record.content)
    content[random.choice([n for n in range(64) if not record.mask >> n & 1])] = random.randrange(1, 256)
    return file.with_record(place, replace(record, content=bytes(content)))


def new_above(random, file):
    """An atomic that says what it wrote where it wrote nothing, or more than its width."""
    places = file.places(Atomic)
    if not places:
        return file.data + b"\x0a"
    place = random.choice(places)
    record = file.records[place]
    if record.width == 4:
        return file.with_record(place, replace(record, new=1 << 32))
    return file.with_record(place, replace(record, new=1, wrote=0))


def interrupt_bits(random, file):
    """An interrupt with instruction bits."""
    stamp = max((record.stamp for record in file.records if record.hart == 0), default=0)
    extra = Trap(0, stamp, pc=0, bits=0x13, cause=1 << 63 | 7, tval=0)
    return spell_file(file.header, file.records + [extra])


def flip(random, file):
    """A changed bit behind the header; in version 2 mostly one of a number's spelling."""
    changed = bytearray(file.data)
    changed[random.randrange(16, len(changed))] ^= 1 << random.randrange(8)
    return bytes(changed)


def idle_byte(random, file):
    """A record with a byte more or less, as where a number is spelled with an idle last byte."""
    if not file.records:
        return file.data[:16] + b"\x80" + file.data[16:]
    place = random.randrange(len(file.records))
    piece = file.pieces[place]
    at = random.randrange(2, len(piece) + 1)
    middle = random.choice((b"\0", b"\x80", b"\x80\0"))
    return file.with_piece(place, piece[:at] + middle + piece[at + random.choice((0, 1)):])


BREAKS = {
    "cut": cut, "append": append, "header": header, "end": end_count, "tag": tag, "hart": hart,
    "stamps": stamps, "bound": bound, "mask": outside_mask, "new": new_above,
    "interrupt": interrupt_bits, "flip": flip, "idle byte": idle_byte,
}


def break_file(random, header_, records):
    """The name of a break and the broken bytes; a few may still be good."""
    name = random.choice(tuple(BREAKS))
    return name, BREAKS[name](random, WholeFile(header_, records))
