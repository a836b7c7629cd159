"""The line of a record, as `difftest dump` prints it."""

from __future__ import annotations

from .records import Csrs, Drain, Key, Record, Refill, Regs

_DECIMAL = {"at", "width", "wrote", "count", "mode"}


def _number(name: str, value: int) -> str:
    if name in _DECIMAL:
        return f"{name}={value}"
    return f"{name}={value:08x}" if name == "bits" else f"{name}={value:016x}"


def body_text(record: Record) -> str:
    """The kind of a record and its fields."""
    words = [record.kind]
    if isinstance(record, Regs):
        words += [f"pc={record.pc:016x}", "x=" + ",".join(f"{value:016x}" for value in record.x)]
    elif isinstance(record, Csrs):
        words += [f"mode={record.mode}", "v=" + ",".join(f"{value:016x}" for value in record.v)]
    else:
        pairs = zip(record.numbers, record.values())
        words += [_number(name, value) for (name, _), value in pairs]
    if isinstance(record, (Drain, Refill)):
        words.append(f"bytes={record.content.hex()}")
    return " ".join(words)


def line_text(key: Key, record: Record) -> str:
    """The line of a record with this key."""
    return f"{key} {body_text(record)}"
