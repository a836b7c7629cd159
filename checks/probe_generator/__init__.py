"""Makes probe files for comparing two checkers of multicore runs."""

import os
import sys

# Records, instructions and page walks are those of the Python package of the repository.
_TOP = os.path.dirname(os.path.dirname(os.path.dirname(os.path.abspath(__file__))))
sys.path.insert(0, os.path.join(_TOP, "probes", "python"))
