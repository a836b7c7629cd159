"""`python3 -m second_opinion pass [--sources] IMAGE PROBES`, or `.. coherence [--workers N] PERMS PROBES`,
from the folder `checks`."""

import sys

from .checker import main

sys.exit(main())
