"""Memory as an image that is chosen when first read, and a list of writes ordered by key."""

from bisect import bisect_left, insort

from difftest_probes.isa.fields import RAM_START


class GrowingImage:
    """Image bytes that stay open until somebody reads them."""

    def __init__(self, limit, fill):
        self.limit = limit
        self.fill = fill
        self.known = {}

    def is_open(self, address, width):
        """Whether none of these bytes has been read yet and all may still be chosen."""
        known = self.known
        return address + width <= self.limit and all(
            address + n not in known for n in range(width))

    def define(self, address, value, width):
        """Chooses bytes."""
        for n in range(width):
            self.known[address + n] = value >> 8 * n & 0xFF

    def byte(self, address):
        """One byte; choosing it, with its aligned neighbours, where it is open."""
        found = self.known.get(address)
        if found is None:
            if address >= self.limit:
                return 0
            start = address & ~7
            value = self.fill(start)
            for n in range(8):
                self.known.setdefault(start + n, value >> 8 * n & 0xFF)
            found = self.known[address]
        return found

    def spell(self):
        """The bytes of the image up to the last that was chosen."""
        if not self.known:
            return b""
        image = bytearray(max(self.known) + 1 - RAM_START)
        for address, value in self.known.items():
            image[address - RAM_START] = value
        while image and not image[-1]:
            image.pop()
        return bytes(image)


class History:
    """All writes so far by key, and what each moment of them shows."""

    def __init__(self, image, harts):
        self.image = image
        self.keys = []
        self.own_keys = [[] for _ in range(harts)]
        self.chains = {}
        self.lines = {}
        # No later write may have a key below this one: somebody has used what it would change.
        self.frozen = (0, 0, -1)

    def may_write(self, key):
        """Whether a write with this key changes nothing that was used."""
        return key > self.frozen

    def freeze(self, moment):
        """Notes that a moment was used."""
        if moment:
            self.frozen = max(self.frozen, self.keys[moment - 1])

    def add(self, key, pieces):
        """Adds a write of (address, byte) pieces."""
        insort(self.keys, key)
        insort(self.own_keys[key[1]], key)
        for address, value in pieces:
            insort(self.chains.setdefault(address, []), (key, value))
        insort(self.lines.setdefault(pieces[0][0] >> 6, []), key)

    def before(self, key):
        """The moment that holds exactly the writes with smaller keys."""
        return bisect_left(self.keys, key)

    def least(self, key, at):
        """The least moment that a record with this key may see for cycle `at`."""
        moment = bisect_left(self.keys, (at,))
        own = self.own_keys[key[1]]
        count = bisect_left(own, min(key, (at + 1,)))
        if count:
            moment = max(moment, bisect_left(self.keys, own[count - 1]) + 1)
        return moment

    def greatest(self, at):
        """The greatest moment that the newest record of a hart may see for cycle `at`."""
        return bisect_left(self.keys, (at + 1,))

    def byte(self, moment, address):
        """The byte of a moment and the key of the write that it comes from, or None."""
        chain = self.chains.get(address)
        if chain and moment:
            limit = self.keys[moment - 1]
            for key, value in reversed(chain):
                if key <= limit:
                    return value, key
        return self.image.byte(address), None

    def number(self, moment, address, width):
        """A number of `width` bytes at a moment."""
        return sum(self.byte(moment, address + n)[0] << 8 * n for n in range(width))

    def written(self, address, moment):
        """Whether a write of this moment covers the byte."""
        chain = self.chains.get(address)
        return bool(chain and moment and chain[0][0] <= self.keys[moment - 1])

    def others_between(self, line, first, last, hart):
        """Whether another hart's write to the line stands between two keys."""
        return any(first < key < last and key[1] != hart
                   for key in self.lines.get(line >> 6, ()))
