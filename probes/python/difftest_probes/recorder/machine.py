"""QEMU's machine `virt` behind its stub: harts that are stepped one at a time, and memory."""

from __future__ import annotations

import os
import shutil
import socket
import struct
import subprocess
import sys
import tempfile
import time
from types import TracebackType
from typing import Dict, List, NamedTuple, Optional, Protocol, Sequence, Tuple, Type

from ..records import CSR_NAMES, LINE_BYTES, RAM_START, in_ram, line_of
from ..writer import ProbeError
from .remote import MOST_MEMORY, Register, Remote, RemoteError, content_of, number_of

QEMU = "qemu-system-riscv64"
# RV64IMAC with M, S and U: what QEMU has beyond the profile is turned off as far as it can be.
PROCESSOR = (
    "rv64,pmp=false,f=false,d=false,h=false,sstc=false,pmu-num=0,zba=false,zbb=false,zbc=false,zbs=false,"
    "mvendorid=0,marchid=0,mimpid=0"
)
SECONDS_TO_START = 30
# The stub answers within some milliseconds; it is waited for MOST_WAITS times as long.
SECONDS_TO_ANSWER = 1
# QEMU's own start-up code is a few instructions.
MOST_STEPS_TO_START = 64
_INTEGERS = struct.Struct("<33Q")
_DEVICE_TREE_MAGIC = 0xD00DFEED
_A1 = 11


class HartRegisters(NamedTuple):
    """The registers of a hart between two instructions. x[0] is 0."""

    x: Tuple[int, ...]
    pc: int


class ControlRegisters(NamedTuple):
    """The mode of a hart, and its registers of control in the order of CSR_NAMES."""

    mode: int
    values: Tuple[int, ...]


class Machine(Protocol):
    """What the recorder asks of a machine."""

    def step(self, hart: int, line: Optional[int]) -> Tuple[HartRegisters, bytes]:
        """Steps a hart; gives its registers, and the bytes of the line afterwards where one is named."""

    def registers(self, hart: int) -> HartRegisters:
        """The registers of a hart."""

    def control(self, hart: int) -> ControlRegisters:
        """The registers of control of a hart."""

    def lines(self, addresses: Sequence[int]) -> List[bytes]:
        """The bytes of lines of RAM."""

    def write(self, address: int, content: bytes) -> None:
        """Writes bytes to RAM."""


def words_of(elf: str, harts: int, stub: str) -> List[str]:
    """The command that starts QEMU, which then waits at the first instruction of its own start-up."""
    return [
        *(QEMU, "-machine", "virt", "-cpu", PROCESSOR, "-smp", str(harts), "-m", "64M", "-bios", "none"),
        *("-accel", "tcg,thread=single", "-display", "none", "-serial", "stdio", "-monitor", "none"),
        *("-kernel", elf, "-S", "-gdb", f"unix:{stub},server=on,wait=off"),
    ]


def connect(path: str, process: "subprocess.Popen[bytes]") -> socket.socket:
    """A connection to the stub of a process, once it listens."""
    end = time.monotonic() + SECONDS_TO_START
    while True:
        connection = socket.socket(socket.AF_UNIX, socket.SOCK_STREAM)
        try:
            connection.connect(path)
            connection.settimeout(SECONDS_TO_ANSWER)
            return connection
        except OSError:
            connection.close()
        if process.poll() is not None:
            raise RemoteError(f"QEMU ended with status {process.returncode} before it answered")
        if time.monotonic() > end:
            raise RemoteError(f"QEMU does not listen after {SECONDS_TO_START} seconds")
        time.sleep(0.01)


class Qemu:
    """A QEMU of our own. Leaving the block ends it."""

    def __init__(self, elf: str, harts: int) -> None:
        if shutil.which(QEMU) is None:
            raise ProbeError(f"there is no {QEMU}")
        self._folder = tempfile.TemporaryDirectory()
        stub = os.path.join(self._folder.name, "stub")
        # What the program prints goes to standard error, which is also where QEMU complains.
        self._process = subprocess.Popen(
            words_of(elf, harts, stub),
            stdin=subprocess.DEVNULL,
            stdout=sys.stderr.fileno(),
            start_new_session=True,
        )
        try:
            self._connection = connect(stub, self._process)
            self.harts = StubMachine(Remote(self._connection), harts)
        except BaseException:
            self.end()
            raise

    def end(self) -> None:
        """Ends the process."""
        self._process.kill()
        self._process.wait()
        self._folder.cleanup()

    def __enter__(self) -> StubMachine:
        return self.harts

    def __exit__(
        self,
        _kind: Optional[Type[BaseException]],
        _value: Optional[BaseException],
        _trace: Optional[TracebackType],
    ) -> None:
        self._connection.close()
        self.end()


class StubMachine:
    """The harts and the memory of a machine, by its stub. Memory is physical memory."""

    def __init__(self, remote: Remote, harts: int) -> None:
        self._remote = remote
        remote.ask(b"qSupported:multiprocess+;xmlRegisters=riscv")
        remote.command(b"Qqemu.PhyMemMode:1")
        self._threads = remote.threads()
        if len(self._threads) != harts:
            raise RemoteError(f"the machine has {len(self._threads)} harts, not {harts}")
        self._selected = b""
        self._registers = remote.registers()
        missing = [name for name in (*CSR_NAMES, "priv", "mhartid") if name not in self._registers]
        if missing:
            raise RemoteError(f"the stub has no register {missing[0]}")
        for hart in range(harts):
            if self._read(hart, ["mhartid"])[0] != hart:
                raise RemoteError(f"thread {self._threads[hart].decode()} is not hart {hart}")

    def _select(self, hart: int) -> None:
        thread = self._threads[hart]
        if thread != self._selected:
            self._remote.command(b"Hg" + thread)
            self._selected = thread

    def _read(self, hart: int, names: Sequence[str]) -> List[int]:
        """The registers of these names."""
        self._select(hart)
        numbers: Dict[str, Register] = self._registers
        answers = self._remote.ask_all([b"p%x" % numbers[name].number for name in names])
        return [number_of(answer) for answer in answers]

    def registers(self, hart: int) -> HartRegisters:
        """The registers of a hart."""
        self._select(hart)
        return integers_of(self._remote.ask(b"g"))

    def control(self, hart: int) -> ControlRegisters:
        """The mode and the registers of control of a hart."""
        mode, *values = self._read(hart, ["priv", *CSR_NAMES])
        return ControlRegisters(mode & 3, tuple(values))

    def step(self, hart: int, line: Optional[int]) -> Tuple[HartRegisters, bytes]:
        """Steps a hart; gives its registers, and the bytes of the line afterwards where one is named."""
        self._remote.step(self._threads[hart])
        # The stub has now selected the hart that it stepped.
        self._selected = self._threads[hart]
        if line is None:
            return integers_of(self._remote.ask(b"g")), b""
        answers = self._remote.ask_all([b"g", b"m%x,%x" % (line, LINE_BYTES)])
        return integers_of(answers[0]), content_of(answers[1], (line, LINE_BYTES))

    def lines(self, addresses: Sequence[int]) -> List[bytes]:
        """The bytes of lines of RAM."""
        return self._remote.read_memory([(address, LINE_BYTES) for address in addresses])

    def write(self, address: int, content: bytes) -> None:
        """Writes bytes to RAM."""
        self._remote.write_memory(address, content)

    def arrive(self) -> None:
        """Brings each hart from QEMU's start-up to the start of RAM, with x1 to x31 then 0."""
        for hart in range(len(self._threads)):
            found = self.registers(hart)
            for _ in range(MOST_STEPS_TO_START):
                if found.pc == RAM_START:
                    break
                found, _ = self.step(hart, None)
            if found.pc != RAM_START:
                raise RemoteError(f"hart {hart} is at {found.pc:x} and has not come to {RAM_START:x}")
            self._clear_device_tree(found.x[_A1])
            words = _INTEGERS.pack(*([0] * 32), RAM_START)
            self._remote.command(b"G" + words.hex().encode())

    def _clear_device_tree(self, address: int) -> None:
        """RAM behind the image is zero in the profile, and QEMU puts its device tree there."""
        if not in_ram(address, 8):
            return
        magic, size = struct.unpack(">II", self._remote.read_memory([(address, 8)])[0])
        if magic == _DEVICE_TREE_MAGIC and in_ram(address, size):
            self._remote.write_memory(address, bytes(size))

    def holds(self, image: bytes) -> Optional[int]:
        """The first address of RAM whose byte is not that of the image, within the image's lines."""
        wanted = image + bytes(-len(image) % LINE_BYTES)
        places = [
            (RAM_START + start, min(MOST_MEMORY, len(wanted) - start))
            for start in range(0, len(wanted), MOST_MEMORY)
        ]
        found = b"".join(self._remote.read_memory(places))
        if found == wanted:
            return None
        return RAM_START + next(at for at, byte in enumerate(wanted) if found[at] != byte)


def integers_of(answer: bytes) -> HartRegisters:
    """The registers that the stub's answer to `g` begins with: x0 to x31, and pc."""
    try:
        numbers = _INTEGERS.unpack_from(bytes.fromhex(answer.decode("ascii")))
    except (ValueError, UnicodeDecodeError, struct.error):
        raise RemoteError(f"the stub answers {answer[:40]!r} in the place of registers") from None
    return HartRegisters(numbers[:32], numbers[32])


class Memory:
    """RAM as the machine has it. A line is asked for once, and again after a hart has written it."""

    def __init__(self, machine: Machine) -> None:
        self._machine = machine
        self._lines: Dict[int, bytes] = {}
        # The lines that were looked at since this was last emptied.
        self.looked_at: List[int] = []

    def line(self, address: int) -> bytes:
        """The bytes of a line."""
        if address not in self._lines:
            self._lines[address] = self._machine.lines([address])[0]
        return self._lines[address]

    def read(self, address: int, width: int) -> int:
        """The number at an address; it lies in one line."""
        line = line_of(address)
        self.looked_at.append(line)
        start = address - line
        return int.from_bytes(self.line(line)[start : start + width], "little")

    def put(self, line: int, content: bytes) -> None:
        """A line as it was seen behind a write."""
        self._lines[line] = content
