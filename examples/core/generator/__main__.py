"""Makes a random program for the example cores: python3 -m generator SEED OUT.image"""

import argparse
import sys
from pathlib import Path

from .program import build, program


def main() -> int:
    """Writes the image of one program, or its text."""
    words = argparse.ArgumentParser(prog="generator", description="Makes a random program for the example cores.")
    words.add_argument("seed", type=int)
    words.add_argument("image", type=Path)
    words.add_argument("--text", action="store_true", help="write the program's text in place of its image")
    chosen = words.parse_args()
    if chosen.text:
        chosen.image.write_text(program(chosen.seed), encoding="ascii")
    else:
        build(program(chosen.seed), chosen.image)
    return 0


if __name__ == "__main__":
    sys.exit(main())
