"""The probe files of difftest: records, writing, reading, and the reports over them.

    from difftest_probes import Commit, Writer, check, read

    with open("run.probes", "wb") as stream, Writer(stream, harts=1) as writer:
        writer.write(Commit(hart=0, stamp=1, pc=0x80000000, bits=0x00500093, value=5))
    print(check("run.image", "run.probes").verdict)

The commands are `python3 -m difftest_probes`. The package needs the standard library alone.
"""

from .elf import ElfError, image_of_elf
from .lawful import Problem, problems
from .permissions import (
    MalformedPermissions,
    Op,
    PermissionEvent,
    PermissionFile,
    PermissionReader,
    PermissionWriter,
    UnlawfulEvent,
    read_permissions,
    write_permissions,
)
from .program import check
from .reader import BeyondLimit, Malformed, ProbeFile, Reader, iter_records, read
from .records import (
    Atomic,
    Beat,
    Commit,
    Csrs,
    Drain,
    Key,
    Load,
    Record,
    Refill,
    Regs,
    Store,
    Trap,
    keyed,
)
from .report import Failure, HartCounts, Note, OwnStore, Report, Run, parse_report
from .spelling import Header
from .text import line_text
from .writer import LimitReached, ProbeError, Unlawful, Writer, write_file

__all__ = [
    "Atomic",
    "Beat",
    "BeyondLimit",
    "Commit",
    "Csrs",
    "Drain",
    "ElfError",
    "Failure",
    "HartCounts",
    "Header",
    "Key",
    "LimitReached",
    "Load",
    "Malformed",
    "MalformedPermissions",
    "Note",
    "Op",
    "OwnStore",
    "PermissionEvent",
    "PermissionFile",
    "PermissionReader",
    "PermissionWriter",
    "ProbeError",
    "ProbeFile",
    "Problem",
    "Reader",
    "Record",
    "Refill",
    "Regs",
    "Report",
    "Run",
    "Store",
    "Trap",
    "Unlawful",
    "UnlawfulEvent",
    "Writer",
    "check",
    "image_of_elf",
    "iter_records",
    "keyed",
    "line_text",
    "parse_report",
    "problems",
    "read",
    "read_permissions",
    "write_file",
    "write_permissions",
]
