"""The reasons of a FAIL: their names, and what docs/JUDGEMENT.md says of them."""

from __future__ import annotations

import os
import re
from typing import List, NamedTuple, Optional

from .program import TOP
from .reader import Path

REASONS = (
    "Pc",
    "Fetch",
    "Raises",
    "Kind",
    "Cause",
    "Tval",
    "Interrupt",
    "Value",
    "Address",
    "StoreData",
    "Order",
    "LoadSource",
    "Adopt",
    "Counter",
    "Undrained",
    "AtomicValue",
    "AtomicWrite",
    "Refill",
    "ScSuccess",
    "DrainCount",
    "DrainData",
    "Barrier",
    "State",
)
JUDGEMENT = os.path.join(TOP, "docs", "JUDGEMENT.md")


class ReasonText(NamedTuple):
    """What is said of a reason: the table's row, and where to look in the design."""

    expected: str
    found: str
    look: str
    more: str


def _row(text: str, number: int) -> Optional[List[str]]:
    match = re.search(rf"^\| {number} \| {REASONS[number - 1]} \|(.*)\|$", text, re.MULTILINE)
    return [cell.strip() for cell in match.group(1).split("|")] if match else None


def _more(text: str, number: int) -> str:
    """The paragraph that a reason's name in bold begins, with the list behind it."""
    name = re.escape(f"**{number} {REASONS[number - 1]}**"), re.escape(f"**{number} {REASONS[number - 1]}.**")
    pattern = rf"^(?:[^\n]*{name[0]}[^\n]*|{name[1]}[^\n]*)\n(?:\n?(?:- |  )[^\n]*\n)*"
    match = re.search(pattern, text, re.MULTILINE)
    return match.group(0).strip() if match else ""


def reason_text(number: int, path: Path = JUDGEMENT) -> Optional[ReasonText]:
    """What the page says of a reason, or None where the page is not there or says nothing."""
    try:
        with open(path, encoding="utf-8") as source:
            text = source.read()
    except OSError:
        return None
    cells = _row(text, number)
    if cells is None or len(cells) != 3:
        return None
    look = cells[2]
    return ReasonText(
        cells[0], cells[1], look[:-7] if look.endswith(": below") else look, _more(text, number)
    )
