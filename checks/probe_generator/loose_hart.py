"""What the loose device keeps for each hart."""

from .hart import Hart
from .own_stores import OwnStores

# A hart ends after so many traps without another instruction between them, and after so many
# instructions without one that is fetched for the first time.
STUCK_AFTER = 5
BORED_AFTER = 60


class LooseHart:
    """One hart with all that later records depend on."""

    def __init__(self, number, wide=False):
        self.state = Hart(number, wide)
        self.number = number
        self.seq = 0
        self.stores = OwnStores()
        self.floor = {}
        self.order = 0
        self.latest_read = 0
        self.reserved = None
        self.last_fence_i = None
        self.flush_all = None
        self.flush_pages = {}
        self.fruitless = 0
        self.repeated = 0
        self.upper_half = None

    @property
    def stuck(self):
        """Whether the hart only traps, or only repeats itself."""
        return self.fruitless >= STUCK_AFTER or self.repeated >= BORED_AFTER
