"""Files that are written beside their place and put there once they are whole."""

from __future__ import annotations

import contextlib
import os
from typing import BinaryIO, Iterator

from .reader import Path


@contextlib.contextmanager
def replacing(path: Path) -> Iterator[BinaryIO]:
    """A stream whose bytes become the file at the path, unless the block is left by an exception."""
    name = os.fspath(path)
    if os.path.exists(name) and not os.path.isfile(name):
        # A pipe or a device has no place beside it.
        with open(name, "wb") as out:
            yield out
        return
    beside = f"{name}.{os.getpid()}.part"
    try:
        with open(beside, "wb") as out:
            yield out
        os.replace(beside, name)
    except BaseException:
        with contextlib.suppress(FileNotFoundError):
            os.remove(beside)
        raise


def write_text(path: Path, text: str) -> None:
    """Writes a whole text."""
    with replacing(path) as out:
        out.write(text.encode("utf-8"))
