"""`python3 -m difftest_probes.recorder ..`: see `difftest_probes.recorder.command`."""

import sys

from .command import main

sys.exit(main())
