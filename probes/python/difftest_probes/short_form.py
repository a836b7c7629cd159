"""The numbers and lines of version 2: which stand in a record, and what their bytes spell."""

from __future__ import annotations

import re
from functools import lru_cache
from typing import Callable, Dict, List, NamedTuple, NoReturn, Optional, Tuple

from .records import KIND_OF_TAG, LINE_BYTES, Layout

MOST_NUMBER_BYTES = 10
# So many numbers are kept with their bytes.
MOST_KEPT = 1 << 16
WHOLE_LINE = (1 << LINE_BYTES) - 1

# By the bytes that a field has in version 1: a number that is not 0 and that fits. Of those of 10 bytes
# `number_of` finds the ones that do not.
_NUMBER_PATTERNS = {
    1: rb"([\x01-\x7f]|[\x80-\xff]\x01)",
    2: rb"([\x80-\xff]?[\x01-\x7f]|[\x80-\xff]{2}[\x01-\x03])",
    4: rb"([\x80-\xff]{0,3}[\x01-\x7f]|[\x80-\xff]{4}[\x01-\x0f])",
    8: rb"([\x80-\xff]{0,9}[\x01-\x7f])",
}
_ABSENT_PATTERN = rb"()"
_ONE_NUMBER = re.compile(rb"[\x80-\xff]*[\x00-\x7f]")


class BadForm(Exception):
    """Bytes that begin no record, whatever follows."""


def number_of(spelled: bytes) -> int:
    """The number that these bytes spell, the last of which has bit 7 clear."""
    number = 0
    for byte in reversed(spelled):
        number = number << 7 | byte & 0x7F
    if number >> 64 or not spelled[-1] and len(spelled) > 1:
        raise BadForm("a number that is above 8 bytes, or has a byte too many")
    return number


def number_end(data: bytes, place: int) -> int:
    """The place behind the number that is spelled at a place; IndexError where the bytes stop."""
    most = place + MOST_NUMBER_BYTES
    while data[place] >= 0x80:
        place += 1
        if place == most:
            raise BadForm("a number of more than 10 bytes")
    return place + 1


class Numbers(Dict[bytes, int]):
    """The numbers that were spelled last, by their bytes; a field without bytes is 0."""

    def __missing__(self, spelled: bytes) -> int:
        if len(self) >= MOST_KEPT:
            self.clear()
        number = self[spelled] = number_of(spelled) if spelled else 0
        return number


# Matches the numbers at a place.
Match = Callable[[bytes, int], Optional["re.Match[bytes]"]]


class Form(NamedTuple):
    """What presence bits say."""

    match: Match
    fields: Layout
    # The places of the fields that are there.
    places: Tuple[int, ...]


@lru_cache(maxsize=None)
def _many_numbers(count: int) -> Match:
    """Matches so many numbers of up to 8 bytes, which are no groups."""
    return re.compile(rb"(?:%b){%d}" % (_NUMBER_PATTERNS[8].replace(b"(", b"(?:"), count)).match


@lru_cache(maxsize=4096)
def form_of(tag: int, presence: bytes) -> Form:
    """The form of a record of this kind with these presence bits."""
    bits = int.from_bytes(presence, "little")
    fields = KIND_OF_TAG[tag].numbers
    if bits >> len(fields):
        raise BadForm("a presence bit of no field is set")
    places = tuple(place for place in range(len(fields)) if bits >> place & 1)
    if len(presence) > 1:
        # There are too many such forms for a pattern of each. `many_numbers` takes the match apart.
        return Form(_many_numbers(len(places)), fields, places)
    pattern = b"".join(
        _NUMBER_PATTERNS[size] if bits >> place & 1 else _ABSENT_PATTERN
        for place, (_, size) in enumerate(fields)
    )
    return Form(re.compile(pattern).match, fields, places)


def many_numbers(form: Form, spelled: bytes, value_of: Callable[[bytes], int]) -> List[int]:
    """The numbers of all fields of a form that has many, 0 where none is there."""
    found = [0] * len(form.fields)
    for place, number in zip(form.places, _ONE_NUMBER.findall(spelled)):
        found[place] = value_of(number)
    return found


def refuse_numbers(form: Form, data: bytes, place: int) -> NoReturn:
    """Raises what is wrong with the numbers at a place, which the form does not match."""
    for field in form.places:
        name, size = form.fields[field]
        end = number_end(data, place)
        value = number_of(data[place:end])
        if not value or value >> 8 * size:
            raise BadForm(f"{name} is spelled as {value:#x}")
        place = end
    raise AssertionError("the numbers are good")


@lru_cache(maxsize=4096)
def _runs(mask: int) -> Tuple[Tuple[int, int], ...]:
    """The runs of set bits of a mask: where each begins and how long it is."""
    places = [place for place in range(LINE_BYTES) if mask >> place & 1]
    starts = [place for place in places if not place or not mask >> (place - 1) & 1]
    return tuple((at, next(n for n in range(65) if not mask >> (at + n) & 1)) for at in starts)


def line_at(data: bytes, place: int, mask: int) -> Tuple[bytes, int]:
    """The bytes of a line of which those with a mask bit stand at a place; and the place behind them."""
    content = b""
    for start, length in _runs(mask):
        content = content.ljust(start, b"\0") + data[place : place + length]
        place += length
    if place > len(data):
        raise IndexError
    return content.ljust(LINE_BYTES, b"\0"), place
