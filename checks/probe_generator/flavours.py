"""What kinds of programs there are, and how loosely the device runs them."""

# How often each sort of instruction is woven. Sorts that a flavour doesn't name don't come.
_BASE = {"arithmetic": 6, "compressed": 2, "load": 4, "store": 4, "jump": 1, "constant": 1}

FLAVOURS = {
    "arithmetic": {"arithmetic": 20, "compressed": 4, "constant": 3, "jump": 2, "garbage": 0.3,
                   "near miss": 2},
    "compressed": {"compressed": 20, "load": 2, "store": 2, "arithmetic": 2},
    "sharing": {"load": 10, "store": 10, "arithmetic": 2, "constant": 1, "fence": 1},
    "forwarding": {"load": 12, "store": 14, "constant": 1},
    "locks": {"atomic": 14, "load": 5, "store": 4, "near miss": 0.5, "arithmetic": 2, "fence": 1},
    "fences": {"fence": 8, "load": 8, "store": 8, "atomic": 3},
    "self changing": {**_BASE, "change code": 9, "fence": 1, "jump back": 3},
    "privilege": {**_BASE, "csr": 12, "system": 4, "lower": 2, "set up": 4,
                  "modify": 1, "near miss": 2},
    "counters": {"counter": 12, "csr": 2, "arithmetic": 2, "set up": 1, "lower": 1},
    "interrupts": {**_BASE, "enable": 6, "csr": 2, "lower": 1, "system": 2},
    "paging": {**_BASE, "change table": 5, "flush": 5, "turn on": 2, "system": 1, "lower": 2,
               "atomic": 1, "csr": 1, "edge": 0.5},
    "user pages": {"load": 8, "store": 6, "change table": 3, "flush": 3, "turn on": 1,
                   "modify": 4, "lower": 2, "arithmetic": 1, "system": 1, "edge": 0.5},
    "remap": {"remap": 8, "touch": 12, "remap flush": 3},
    "devices": {"load": 12, "store": 4, "counter": 4, "arithmetic": 2, "fence": 1},
    "faults": {**_BASE, "system": 3, "garbage": 1.5, "near miss": 4, "atomic": 3,
               "csr": 2, "lower": 1, "edge": 1},
    "mixed": {**_BASE, "atomic": 3, "fence": 2, "csr": 3, "system": 1, "lower": 1, "set up": 1,
              "turn on": 1, "change table": 1, "flush": 2, "change code": 1, "counter": 1,
              "enable": 1, "modify": 1, "garbage": 0.3, "near miss": 1, "jump back": 1,
              "edge": 0.5},
}

# Where loads, stores and atomics go, by flavour; the rest go to the shared lines alone.
TARGETS = {
    "faults": {"shared": 6, "device": 4, "outside": 3, "wild": 2, "unaligned": 4, "edge": 2},
    "mixed": {"shared": 14, "device": 1, "outside": 1, "unaligned": 1, "alias": 2, "edge": 1,
              "code": 1},
    "paging": {"shared": 6, "alias": 6, "table": 1, "edge": 1, "wild": 1},
    "user pages": {"shared": 5, "alias": 6, "device": 1, "wild": 1},
    "compressed": {"shared": 6, "device": 1},
    "devices": {"shared": 2, "device": 8},
    "privilege": {"shared": 6, "device": 2, "outside": 1},
    "self changing": {"shared": 4, "code": 2},
}

PAGED = ("paging", "user pages")
LONG = PAGED + ("remap",)

# Rules that a loose device may break, each with flavours that meet it often.
SLIPS = {
    "barrier": ("fences",), "order": ("fences", "locks"),
    "floor": ("sharing", "forwarding", "locks"),
    "forward": ("forwarding", "mixed"), "torn": ("sharing", "forwarding"),
    "atomic waits": ("locks", "fences"), "fence waits": ("fences", "self changing", "paging"),
    "reservation": ("locks",), "sc value": ("locks",), "atomic moment": ("locks",),
    "counter": ("counters",), "adopt": ("devices", "counters"),
    "interrupt": ("interrupts", "privilege"), "flush": ("remap", "remap", "paging"),
    "fence.i": ("self changing",),
    "raise": ("faults", "privilege", "mixed"), "refill": ("paging", "sharing"),
    "tval": ("faults", "paging"),
}


def manners_of(random, flavour):
    """How loosely the device runs a program of this flavour."""
    first = random.choice((0, 0, 0, 1, random.randrange(1 << 20), (1 << 64) - 600))
    calm = random.random() < 0.15
    return {
        "first stamp": first, "last stamp": (1 << 64) - 1,
        "steps": random.choice(((1,), (1, 1, 2), (0, 1, 1), (1, 7, 100))),
        "turns": random.choice(((1,), (0, 1, 1), (1, 2), (0, 1, 2, 4), (0, 0, 3, 6))),
        "shuffle": random.choice((0, 0.5)),
        "interrupt": random.choice((0.03, 0.15)) if flavour != "interrupts" else 0.3,
        "drain": random.choice((0.05, 0.15, 0.35)),
        "whole drain": random.choice((0.2, 0.8)),
        "remark": random.choice((0, 0.02, 0.06)),
        "stale": 0 if calm else random.choice((0.1, 0.4, 0.7)),
        "early": 0 if calm else random.choice((0.2, 0.6)),
        "plain tval": random.choice((0, 0.2, 0.6)),
        "sc fails": random.choice((0.05, 0.3)),
    }
