"""Records, probe files and images as bytes, and the program.

The records are those of the repository's Python package. The offsets of `commit` and the others count
from the start of RAM.
"""
import os
import struct
import subprocess
import sys

TOP = os.path.dirname(os.path.dirname(os.path.abspath(__file__)))
PROGRAM = os.path.join(TOP, "difftest")
sys.path.insert(0, os.path.join(TOP, "probes", "python"))

from difftest_probes import (  # noqa: E402
    Atomic, Beat, Commit, Csrs, Drain, Header, Load, Op, PermissionEvent, PermissionFile, Refill, Regs, Store, Trap)
from difftest_probes.records import RAM_START as RAM  # noqa: E402
from difftest_probes.spelling import spell, spell_end  # noqa: E402


def commit(hart, stamp, offset, bits, value):
    return spell(Commit(hart, stamp, RAM + offset, bits, value))


def trap(hart, stamp, offset, bits, cause, tval):
    return spell(Trap(hart, stamp, RAM + offset, bits, cause, tval))


def load(hart, stamp, offset, bits, value, at, paddr):
    return spell(Load(hart, stamp, RAM + offset, bits, value, at, paddr))


def store(hart, stamp, offset, bits, paddr, value):
    return spell(Store(hart, stamp, RAM + offset, bits, paddr, value))


def atomic(hart, stamp, offset, bits, value, paddr, width, wrote, new):
    return spell(Atomic(hart, stamp, RAM + offset, bits, value, paddr, width, wrote, new))


def refill(hart, stamp, line, content):
    return spell(Refill(hart, stamp, line, content.ljust(64, b"\0")))


def drain(hart, stamp, line, mask, count, places):
    content = bytes(places.get(place, 0) for place in range(64))
    return spell(Drain(hart, stamp, line, mask, count, content))


def registers(hart, stamp, offset, changed):
    return spell(Regs(hart, stamp, RAM + offset, tuple(changed.get(number, 0) for number in range(1, 32))))


def csrs(hart, stamp, mode, mstatus):
    return spell(Csrs(hart, stamp, mode, (mstatus,) + (0,) * 16))


def beat(hart, stamp):
    return spell(Beat(hart, stamp))


def probe_file(harts, records, flags=0):
    return b"".join([Header(harts, 1, flags == 1).spell(), *records, spell_end(len(records))])


def words(*values):
    return b"".join(struct.pack("<I", value) for value in values)


def grant_read(hart, stamp, line):
    return PermissionEvent(Op.GRANT_READ, hart, stamp, line)


def grant_write(hart, stamp, line):
    return PermissionEvent(Op.GRANT_WRITE, hart, stamp, line)


def revoke(hart, stamp, line):
    return PermissionEvent(Op.REVOKE, hart, stamp, line)


def permission_file(harts, events):
    return PermissionFile(harts, tuple(events)).spell()


def put_files(folder, contents):
    """The path of each file by its name, with these bytes. Where the bytes are None there is no such file."""
    paths = {}
    for name, content in contents.items():
        paths[name] = os.path.join(folder, name)
        if os.path.exists(paths[name]):
            os.remove(paths[name])
        if content is not None:
            with open(paths[name], "wb") as out:
                out.write(content)
    return paths


def answer_over(arguments, paths):
    """Runs the program, where a word of `paths` stands for that path, and gives its status and what it prints."""
    done = subprocess.run([PROGRAM] + [paths.get(word, word) for word in arguments],
                          stdout=subprocess.PIPE, check=False)
    return done.returncode, done.stdout


def answer_to(folder, arguments, image, probes):
    """The program's answer, where IMAGE and PROBES stand for files with these bytes."""
    return answer_over(arguments, put_files(folder, {"IMAGE": image, "PROBES": probes}))
