#!/usr/bin/env python3
"""Draws the waves that docs/TUTORIAL.md shows, from runs of the cores, into pictures/: pictures.py [--check]

Each picture is of one hart. Its lanes are signals of hart.sv or hart_probes.sv, from the file of waves, and below
them stand the records of these cycles, from the probe file of the same run. With --check nothing is written: each
picture that is there has to be the one that is drawn, and the tutorial has to show it."""

import argparse
import sys
from collections.abc import Iterator
from dataclasses import dataclass
from pathlib import Path

from events import Waves as WaveFile
from events import cycles_of
from runs import FOLDER, OUT, SIMULATION, answer_of
from wave_drawing import ADDRESS, LEVEL, NAMES, NUMBER, Flag, Lane, Waves, svg_of

sys.path.insert(0, str(FOLDER.parent.parent / "probes" / "python"))
# pylint: disable=wrong-import-position
from difftest_probes import Atomic, Drain, Key, Load, Record, Trap, keyed, read  # noqa: E402

PLACE = FOLDER / "pictures"
TUTORIAL = FOLDER.parent.parent / "docs" / "TUTORIAL.md"
MOST_BYTES = 30_000
SECONDS = 60
STATES = ("Boundary", "Fetch", "Execute", "Access", "Memory")
# The fields that a record's flag has beside its key and kind.
FIELDS: dict[type[Record], tuple[str, ...]] = {Load: ("at",), Drain: ("count",), Atomic: ("wrote",), Trap: ("cause",)}


@dataclass(frozen=True)
class Picture:
    """What a picture shows: a program of bugs/, words for the simulation, a hart, cycles, and signals."""

    title: str
    program: str
    first: int
    last: int
    lanes: tuple[str, ...]
    words: tuple[str, ...] = ("+state=0",)
    hart: int = 0


# How a signal is drawn that is not one bit.
SORTS = {
    "state": NAMES,
    "pc": ADDRESS,
    "memory.buffer.used": NUMBER,
    "memory.line_read_at": NUMBER,
    "probes.until_state": NUMBER,
    "probes.last_record": NUMBER,
}
FENCE_LANES = ("state", "memory.buffer.used", "drain_granted", "memory.fills", "retires")
PICTURES = {
    "commit": Picture("A refill and two commits", "BUG_FENCE", 0, 9, ("state", "pc", "refills", "retires")),
    "fence": Picture("A store, its drain, a fence and a load", "BUG_FENCE", 24, 38, FENCE_LANES),
    "load": Picture(
        "Two loads that use one read of a line", "BUG_STORE_CONDITIONAL", 39, 54,
        ("state", "memory.fills", "memory.line_hit", "memory.line_read_at", "retires"), hart=1,
    ),
    "atomic": Picture(
        "An atomic behind the drain of a store", "BUG_ATOMIC_ORDER", 25, 36,
        ("state", "memory.buffer.used", "drain_granted", "memory.atomic_ready", "retires"),
    ),
    "exception": Picture(
        "A page fault of a load", "BUG_TVAL", 66, 77, ("state", "walk_request.valid", "page_fault", "trap.valid", "pc"),
    ),
    "interrupt": Picture(
        "An interrupt between two instructions", "BUG_MEPC", 40, 49, ("state", "interrupt.valid", "trap.valid", "pc"),
    ),
    "state": Picture(
        "The registers behind every second instruction", "BUG_FENCE", 4, 14,
        ("state", "retires", "probes.until_state", "probes.tells_state"), ("+state=2",),
    ),
    "beat": Picture(
        "A hart that waits in WFI", "BUG_FENCE", 8, 24,
        ("state", "probes.tells", "probes.last_record", "probes.beats"), ("+state=0", "+beat=6"), 1,
    ),
    "fence-fault": Picture(
        "The fence with the planted fault", "BUG_FENCE", 24, 36, FENCE_LANES, ("+state=0", "+bug=BUG_FENCE"),
    ),
}


def signal_of(name: str, hart: int) -> str:
    """The end of a signal's name in the file of waves."""
    if name.startswith("probes."):
        return f"gen_probes[{hart}].hart.{name.removeprefix('probes.')}"
    return f"gen_harts[{hart}].hart.{name}"


def lanes_of(picture: Picture, waves: Path) -> list[Lane]:
    """The signals of a picture, in its cycles."""
    file = WaveFile(waves)
    cycle = file.signal("cores.cycle")
    signs = {name: file.signal(signal_of(name, picture.hart)) for name in picture.lanes}
    values: dict[str, list[int]] = {name: [] for name in picture.lanes}
    for now in cycles_of(file):
        if picture.first <= now[cycle] <= picture.last:
            for name, sign in signs.items():
                values[name].append(now[sign])
    return [Lane(name, SORTS.get(name, LEVEL), values[name], STATES) for name in picture.lanes]


def text_of(key: Key, record: Record) -> str:
    """What the flag of a record says."""
    fields = [f"{name}={getattr(record, name):x}" if name == "cause" else f"{name}={getattr(record, name)}"
              for name in FIELDS.get(type(record), ())]
    return " ".join([str(key), record.kind, *fields])


def flags_of(picture: Picture, probes: Path) -> Iterator[Flag]:
    """The records of a picture, and of each load whose bytes are from an earlier cycle a note there."""
    for key, record in keyed(read(probes).records):
        if key.hart != picture.hart or not picture.first <= key.stamp <= picture.last:
            continue
        if isinstance(record, Load) and picture.first <= record.at < key.stamp:
            yield Flag(record.at, f"at of {key.seq}", is_note=True)
        yield Flag(key.stamp, text_of(key, record))


def draw(name: str, picture: Picture) -> str:
    """Runs the cores for a picture, and draws it."""
    folder = OUT / "pictures"
    image, probes, waves = OUT / "bugs" / f"{picture.program}.image", folder / "run.probes", folder / "run.vcd"
    files = [f"+image={image}", f"+probes={probes}", f"+waves={waves}"]
    run = answer_of([str(SIMULATION), *files, *picture.words, f"+cycles={picture.last + 1}"], SECONDS)
    lanes = lanes_of(picture, waves)
    if any(len(lane.values) != picture.last - picture.first + 1 for lane in lanes):
        raise ValueError(f"{name}: the run does not have these cycles: {run.text}")
    return svg_of(Waves(picture.title, picture.first, lanes, tuple(flags_of(picture, probes))))


def faults_of(drawn: dict[str, str]) -> Iterator[str]:
    """What is wrong with the pictures that are there."""
    tutorial = TUTORIAL.read_text(encoding="utf-8")
    for path in sorted(PLACE.iterdir()):
        if path.name not in drawn:
            yield f"{path.name} is none that is drawn"
    for name, picture in drawn.items():
        path = PLACE / name
        if not path.exists() or path.read_text(encoding="utf-8") != picture:
            yield f"{name} is not the one that is drawn: `make pictures` draws it anew"
        if len(picture) > MOST_BYTES:
            yield f"{name} has {len(picture)} bytes, more than {MOST_BYTES}"
        if f"/pictures/{name})" not in tutorial:
            yield f"{name} is not in the tutorial"


def main() -> int:
    """Draws all pictures, or says which of those that are there are not the ones that are drawn."""
    words = argparse.ArgumentParser(description=__doc__.splitlines()[0])
    words.add_argument("--check", action="store_true")
    is_check = words.parse_args().check
    for folder in (PLACE, OUT / "pictures"):
        folder.mkdir(parents=True, exist_ok=True)
    drawn = {f"{name}.svg": draw(name, picture) for name, picture in PICTURES.items()}
    if not is_check:
        for name, picture in drawn.items():
            (PLACE / name).write_text(picture, encoding="ascii")
        return 0
    faults = list(faults_of(drawn))
    for fault in faults:
        print(f"pictures: {fault}")
    print(f"pictures: {len(drawn)} drawn, {len(faults)} faults")
    return int(bool(faults))


if __name__ == "__main__":
    sys.exit(main())
