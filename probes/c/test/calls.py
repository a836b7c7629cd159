"""Calls of the probe writer by way of call_writer, and the same records as bytes.

The bytes are spelled here by docs/PROBE-FORMAT.md. What is lawful, the second checker's reader decides.
"""

import contextlib
import io
import os
import struct
import subprocess
import sys
from dataclasses import dataclass
from typing import NamedTuple, Optional, Sequence, Union

PROBES = os.path.dirname(os.path.dirname(os.path.dirname(os.path.abspath(__file__))))
sys.path.insert(0, os.path.join(os.path.dirname(PROBES), "checks"))
sys.path.insert(0, os.path.join(PROBES, "python"))
# pylint: disable=wrong-import-position
from difftest_probes.commands.main import main as package  # noqa: E402
from second_opinion.probe_file import ProbeFile, Refused, read_probe_file  # noqa: E402

# The program with the usual buffers, and one with buffers of three records.
BUILT = os.path.join(PROBES, "out", "gcc")
CALL_WRITER = os.environ.get("CALL_WRITER", os.path.join(BUILT, "call_writer"))
CALL_SMALL_WRITER = os.environ.get("CALL_SMALL_WRITER", os.path.join(BUILT, "call_small_writer"))

OK, UNLAWFUL, STAMP_FELL, FULL, IO, CLOSED = range(6)
SV48, VERSION_2 = 1, 2
RAM_START, RAM_END = 0x8000_0000, 0x8400_0000
END_BYTES = 9

# A number, or the bytes of a line.
Field = Union[int, bytes]

# The fields behind hart and stamp.
LAYOUTS = {
    "commit": "QIQ",
    "trap": "QIQQ",
    "regs": "32Q",
    "csrs": "B17Q",
    "load": "QIQQQ",
    "store": "QIQQ",
    "atomic": "QIQQBBQ",
    "drain": "QQH64s",
    "refill": "Q64s",
    "beat": "",
}
TAGS = {kind: tag for tag, kind in enumerate(LAYOUTS, 1)}


@dataclass
class Call:
    """One record: its kind, hart and stamp, and its fields in file order."""

    kind: str
    hart: int
    stamp: int
    fields: Sequence[Field] = ()

    def line(self) -> str:
        """The line for call_writer."""
        words = [value.hex() if isinstance(value, bytes) else hex(value) for value in self.fields]
        return " ".join([self.kind, str(self.hart), str(self.stamp), *words])

    def spell(self) -> bytes:
        """The record's bytes in version 1."""
        layout = "<BBQ" + LAYOUTS[self.kind]
        return struct.pack(layout, TAGS[self.kind], self.hart, self.stamp, *self.fields)

    def spell_short(self, last_stamp: int) -> bytes:
        """The record's bytes in version 2, behind the hart's record with the last stamp."""
        numbers = [value for value in self.fields if isinstance(value, int)]
        presence = sum(1 << place for place, number in enumerate(numbers) if number)
        out = bytes([TAGS[self.kind], self.hart]) + varint((self.stamp - last_stamp) % 2**65)
        out += presence.to_bytes((len(numbers) + 7) // 8, "little")
        out += b"".join(varint(number) for number in numbers if number)
        return out + self.short_line()

    def short_line(self) -> bytes:
        """The bytes of a line as version 2 has them: in a drain those under the mask."""
        if self.kind not in ("drain", "refill"):
            return b""
        line, mask = self.fields[-1], self.fields[1]
        assert isinstance(line, bytes)
        if self.kind == "refill":
            return line
        assert isinstance(mask, int)
        return bytes(byte for place, byte in enumerate(line) if mask >> place & 1)


def varint(number: int) -> bytes:
    """A number in groups of seven bits, the lowest first."""
    out = bytearray()
    while number >= 0x80:
        out.append(number & 0x7F | 0x80)
        number >>= 7
    return bytes(out + bytes([number]))


def spell_file(harts: int, flags: int, calls: Sequence[Call]) -> bytes:
    """The probe file of these records."""
    version = 2 if flags & VERSION_2 else 1
    out = [b"SMPDIFF\0" + struct.pack("<HBBI", version, harts, flags & SV48, 0)]
    last_stamps: dict[int, int] = {}
    for call in calls:
        out.append(call.spell_short(last_stamps.get(call.hart, 0)) if version == 2 else call.spell())
        last_stamps[call.hart] = call.stamp
    return b"".join(out) + struct.pack("<BQ", 255, len(calls))


def close(front: bytes, path: str, *, fit: bool = False) -> bytes:
    """What `close` of the Python package makes of a file that stops here, or `cut --fit`."""
    with open(path, "wb") as out:
        out.write(front)
    words = ["cut", "--fit", path, path] if fit else ["close", path]
    with contextlib.redirect_stdout(io.StringIO()):
        assert package(words) == 0
    with open(path, "rb") as closed:
        return closed.read()


def read(file: bytes) -> Optional[ProbeFile]:
    """What the second checker reads, or None where it refuses the file."""
    try:
        found: ProbeFile = read_probe_file(file)
    except Refused:
        return None
    return found


def calls_of(file: ProbeFile) -> "list[Call]":
    """The calls that write the records of a file."""
    names = {"commit": "pc bits value", "trap": "pc bits cause tval", "load": "pc bits value at paddr",
             "store": "pc bits paddr value", "atomic": "pc bits value paddr width wrote new",
             "drain": "line mask count data", "refill": "line data", "beat": "", "regs": "pc", "csrs": "mode"}
    out = []
    for record in file.records:
        kind = record.kind.lower()
        fields = [getattr(record, name) for name in names[kind].split()]
        out.append(Call(kind, record.hart, record.stamp, [*fields, *record.registers]))
    return out


class Answer(NamedTuple):
    """What a call answered: the status, how many records were taken, and the problem."""

    status: int
    records: int
    problem: str


def run(lines: Sequence[str], program: str = CALL_WRITER, status: int = 0) -> "list[str]":
    """What call_writer prints to these lines."""
    done = subprocess.run([program], input="\n".join(lines) + "\n", stdout=subprocess.PIPE,
                          stderr=subprocess.PIPE, text=True, check=False)
    assert (done.returncode, done.stderr) == (status, ""), f"status {done.returncode}: {done.stderr}"
    return done.stdout.splitlines()


def answer(line: str) -> Answer:
    """An answer from its line."""
    status, records, problem = line.split(" ", 2)
    return Answer(int(status), int(records), problem)


def write(harts: int, flags: int, calls: Sequence[Call], program: str = CALL_WRITER
          ) -> "tuple[list[Answer], bytes]":
    """The answers to the open, to these calls and to the close, and the file's bytes."""
    *lines, file = run([f"open {harts} {flags} -", *(call.line() for call in calls), "close"], program)
    return [answer(line) for line in lines], bytes.fromhex(file)
