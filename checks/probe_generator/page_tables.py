"""Table entries that small programs walk and change."""

from difftest_probes.isa.fields import RAM_START, SUPERVISOR
from difftest_probes.isa.walking import A, D, G, R, U, V, W, X
from .scripts import LEAF_TABLE, MIDDLE_TABLE, ROOT_TABLE, TOP_TABLE

IMAGE_PAGES = 6
CODE_PAGES = 2
TABLE_PAGES = (3, 4, 5)


def _flags(random, user, odds=0.12):
    """A leaf's bits, now and then with one missing."""
    flags = V | R | W | X | A | D | (U if user else 0)
    if random.random() < odds:
        flags &= ~random.choice((V, R, W, X, A, D, R | W, W | X))
    if random.random() < odds / 2:
        flags ^= random.choice((U, G, 1 << 8, 1 << 9))
    return flags


def leaf(random, address, user, odds=0.12):
    """A leaf that maps to the address."""
    return address >> 12 << 10 | _flags(random, user, odds)


def _pointer(random, table):
    flags = V
    if random.random() < 0.06:
        flags |= random.choice((A, D, U, G, 1 << 8, W, 1 << 54, 1 << 63))
    return table >> 12 << 10 | flags


def _odd(random, step):
    """An entry that seldom gives a page of the image."""
    return random.choice((
        0, 0, random.getrandbits(64), random.getrandbits(8),
        leaf(random, 0, False), leaf(random, RAM_START + step // 2, True),
        leaf(random, 0x84000000, False), leaf(random, RAM_START + step, False),
        _pointer(random, 0x84000000), _pointer(random, 0), _pointer(random, ROOT_TABLE)))


def top_entry(random, index):
    """An entry of the table above the root, where there are four levels."""
    if index in (0, 1, 0x1FF) and random.random() < 0.9:
        return _pointer(random, ROOT_TABLE)
    return _odd(random, 1 << 39)


def root_entry(random, index, user):
    """An entry of the root table."""
    if index == 2 or random.random() < 0.6:
        if random.random() < 0.35:
            return leaf(random, RAM_START, user, 0.04)
        return _pointer(random, MIDDLE_TABLE)
    return _odd(random, 1 << 30)


def middle_entry(random, index, user):
    """An entry of the middle table."""
    if index == 0 or random.random() < 0.5:
        if random.random() < 0.3:
            return leaf(random, RAM_START, user, 0.04)
        return _pointer(random, LEAF_TABLE)
    return _odd(random, 1 << 21)


def leaf_entry(random, index, user):
    """An entry of the leaf table: mostly the page of the same number."""
    if index < CODE_PAGES or index in TABLE_PAGES:
        return leaf(random, RAM_START + 0x1000 * index, user, 0.02)
    page = index if index < IMAGE_PAGES and random.random() < 0.85 else (
        random.randrange(IMAGE_PAGES))
    if random.random() < 0.05:
        return _odd(random, 1 << 12)
    if random.random() < 0.08:
        return leaf(random, random.choice((0, 0x1000, 0x83FFF000, 0x84000000)), user)
    return leaf(random, RAM_START + 0x1000 * page, user)


def entry_for(random, place, mode):
    """An entry that suits its place, for a hart that runs in this mode."""
    index = place >> 3 & 0x1FF
    user = mode < SUPERVISOR
    table = place & ~0xFFF
    if random.random() < 0.15 and index >= CODE_PAGES:
        user = not user
    if table == TOP_TABLE:
        return top_entry(random, index)
    if table == ROOT_TABLE:
        return root_entry(random, index, user)
    if table == MIDDLE_TABLE:
        return middle_entry(random, index, user)
    return leaf_entry(random, index, user)
