#!/usr/bin/env python3
"""Lists the events of the harts from the waves of a run, each with the key that its record has to have: events.py VCD

It reads signals of hart.sv and knows nothing of the probe file. The run is to be one with +state=0, and none of its
harts may be silent for so long that it writes a Beat."""

import sys
from collections.abc import Iterator
from pathlib import Path

# Of one cycle the events stand in this order.
EVENTS = {"drain_granted": "drain", "refills": "refill", "retires": "retires", "trap.valid": "traps"}


class Waves:
    """The signals of a file of waves by their names, and what they are at a time."""

    def __init__(self, path: Path) -> None:
        self.lines = iter(path.read_text(encoding="ascii").splitlines())
        self.names: dict[str, str] = {}
        self.values: dict[str, int] = {}
        self.read_names()

    def read_names(self) -> None:
        """The definitions at the start of the file."""
        scopes: list[str] = []
        for line in self.lines:
            words = line.split()
            if words[:1] == ["$scope"]:
                scopes.append(words[2])
            elif words[:1] == ["$upscope"]:
                scopes.pop()
            elif words[:1] == ["$var"]:
                self.names[".".join([*scopes, words[4]])] = words[3]
            elif words[:1] == ["$enddefinitions"]:
                return

    def signal(self, name: str) -> str:
        """The sign by which the file calls a signal, by the end of its name."""
        return next(sign for full, sign in self.names.items() if full.endswith("." + name))

    def times(self) -> Iterator[dict[str, int]]:
        """All values at each time."""
        for line in self.lines:
            if line.startswith("#"):
                yield self.values
            elif line.startswith("b"):
                bits, sign = line[1:].split()
                self.values[sign] = int(bits, 2)
            elif line:
                self.values[line[1:]] = int(line[0], 2)
        yield self.values


def cycles_of(waves: Waves) -> Iterator[dict[str, int]]:
    """The values in each cycle behind the reset: those just before the clock rises."""
    clock, reset = waves.signal("testbench.clk"), waves.signal("testbench.reset")
    before: dict[str, int] = {}
    for values in waves.times():
        if values.get(clock) == 1 and before.get(clock) == 0 and values.get(reset) == 0:
            yield before
        before = dict(values)


def main() -> int:
    """Prints the events in the order of the cycles."""
    waves = Waves(Path(sys.argv[1]))
    cycle = waves.signal("cores.cycle")
    scopes = {scope for name in waves.names for scope in name.split(".") if scope.startswith("gen_harts[")}
    harts = [f"{scope}.hart" for scope in sorted(scopes)]
    signals = [{event: waves.signal(f"{hart}.{event}") for event in EVENTS} for hart in harts]
    counters = [waves.signal(f"{hart}.pc") for hart in harts]
    numbers = [0] * len(harts)
    for values in cycles_of(waves):
        for hart, signs in enumerate(signals):
            for event, sign in signs.items():
                if values.get(sign):
                    pc = f" pc={values[counters[hart]]:x}" if event in ("retires", "trap.valid") else ""
                    print(f"{values[cycle]}.{hart}.{numbers[hart]} {EVENTS[event]}{pc}")
                    numbers[hart] += 1
    return 0


if __name__ == "__main__":
    sys.exit(main())
