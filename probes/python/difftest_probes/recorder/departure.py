"""Where QEMU does something that the profile does not allow."""

from __future__ import annotations

from ..writer import ProbeError


class Departure(ProbeError):
    """The hart, its pc and what QEMU did there. The records before that place are good."""

    def __init__(self, hart: int, pc: int, what: str) -> None:
        super().__init__(f"hart {hart} at {pc:x}: {what}")
        self.hart = hart
        self.pc = pc
        self.what = what
