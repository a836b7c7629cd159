"""Many small pairs of an image and a probe file, each fixed by its number."""

import os
from random import Random

from .broken_files import break_file
from .files import Header, spell_file
from .flavours import FLAVOURS, LONG, SLIPS, manners_of
from .history import GrowingImage
from .images import random_image, spin_image
from .loose_device import LooseDevice
from .mutations import mutate
from .toy_device import ToyDevice
from .weaver import Weaver

HARTS = (1, 1, 2, 2, 2, 2, 3, 3, 4, 8)
TOY_PART, BROKEN_PART, SLIP_PART = 0.12, 0.07, 0.35
LARGE_PART = 0.02
# Of the files so many are of version 2, and so many have the flag of Sv48.
SHORT_PART, WIDE_PART = 0.35, 0.25
# Flavours that come more often than the others, since their rules need luck to be met.
OFTEN = ("remap", "remap", "self changing", "fences")


def loose_run(random, flavour, header, records, slip=None):
    """Image bytes and records of a loose run of a program of this flavour."""
    weaver = Weaver(random, flavour, FLAVOURS[flavour], header.wide)
    if flavour in LONG:
        records = max(records, 150)
    image = weaver.image = GrowingImage(weaver.limit, weaver.fill)
    device = LooseDevice(random, header.harts, image, weaver, manners_of(random, flavour), slip)
    out = device.run(records)
    return image.spell(), out


def _toy_image(random):
    """The name and bytes of an image for the toy device."""
    sort = random.choice(("random", "spin", "woven"))
    if sort == "random":
        return sort, random_image(random.getrandbits(64))
    if sort == "spin":
        return sort, spin_image()
    flavour = random.choice(tuple(FLAVOURS))
    return "woven " + flavour, loose_run(random, flavour, Header(1), 300)[0]


def toy_run(random, header, records):
    """A description, image bytes and records of a run of the toy device."""
    name, image = _toy_image(random)
    fault = random.choice((0, 0, 1, 2, 3, 4, 5, 6))
    # A timer interrupt and a record of registers come after 256 turns.
    cycles = random.choice((records // header.harts + 1, records // header.harts + 1, 270, 300))
    device = ToyDevice(image, header.harts, random.getrandbits(64), fault, header.wide)
    return f"toy device on {name}, fault {fault}", image, device.run(cycles)


def _reorder(random, records):
    """Another file order of the records; that of each hart stays."""
    sort = random.random()
    if sort < 0.2:
        return sorted(records, key=lambda record: record.hart)
    if sort < 0.3:
        return sorted(records, key=lambda record: -record.hart)
    if sort < 0.5:
        lists = {}
        for record in reversed(records):
            lists.setdefault(record.hart, []).append(record)
        harts = [record.hart for record in records]
        random.shuffle(harts)
        return [lists[hart].pop() for hart in harts]
    return records


def _run(random, wanted, form):
    header = Header(random.choice(HARTS), *form)
    records = random.randrange(1500, 4000) if random.random() < LARGE_PART else (
        random.randrange(20, 400))
    if not wanted and random.random() < TOY_PART:
        name, image, out = toy_run(random, header, records)
    elif not wanted and random.random() < SLIP_PART:
        slip = random.choice(tuple(SLIPS))
        flavour = random.choice(SLIPS[slip])
        name = f"{flavour} with slip: {slip}"
        image, out = loose_run(random, flavour, header, records, slip)
    else:
        name = wanted or random.choice(tuple(FLAVOURS) + OFTEN)
        image, out = loose_run(random, name, header, records)
    return name, header, image, _reorder(random, out)


def _form(number):
    """The version of a file and whether it has the flag of Sv48. Its other draws do not know of these."""
    random = Random(f"form {number}")
    return (2 if random.random() < SHORT_PART else 1), random.random() < WIDE_PART


def _words(header):
    """What a description says of a header."""
    return f"harts {header.harts}, version {header.version}" + ", Sv48" * header.wide


def make_pair(number, wanted=None):
    """A description, the image bytes and the probe file bytes of this number.

    Where a flavour is wanted, the pair is a loose run of it without a slip.
    """
    random = Random(number)
    name, header, image, records = _run(random, wanted, _form(number))
    part = random.random()
    if part < BROKEN_PART:
        broken, data = break_file(random, header, records)
        return f"{name}, {_words(header)}, broken: {broken}", image, data
    made = []
    if part < BROKEN_PART + (0.1 if "slip" in name else 0.6):
        made = mutate(random, records, random.choice((1, 1, 1, 1, 2, 3)))
    note = ", changed: " + " + ".join(made) if made else ""
    return f"{name}, {_words(header)}{note}", image, spell_file(header, records)


def write_many(directory, first, count, wanted=None):
    """Writes the pairs of these numbers, and a list of what each one is."""
    os.makedirs(directory, exist_ok=True)
    with open(os.path.join(directory, "list.txt"), "a", encoding="ascii") as listing:
        for number in range(first, first + count):
            description, image, probes = make_pair(number, wanted)
            for ending, data in (("image", image), ("probes", probes)):
                with open(os.path.join(directory, f"{number:06}.{ending}"), "wb") as sink:
                    sink.write(data)
            listing.write(f"{number:06} {description}\n")
