"""`python3 -m difftest_probes COMMAND ..`: see `difftest_probes.commands.main`."""

import sys

from .commands.main import main

sys.exit(main())
