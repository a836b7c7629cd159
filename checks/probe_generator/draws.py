"""The plain shift generator of draws that the toy device and the random image use."""

from difftest_probes.isa.fields import ALL_ONES


class Draws:
    """A stream of 64-bit draws that one seed fixes."""

    def __init__(self, seed):
        self.state = (seed ^ 0x9E3779B97F4A7C15) & ALL_ONES or 1

    def draw(self):
        """The next draw."""
        state = self.state
        state ^= (state << 13) & ALL_ONES
        state ^= state >> 7
        state ^= (state << 17) & ALL_ONES
        self.state = state
        return state
