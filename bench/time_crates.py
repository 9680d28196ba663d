#!/usr/bin/env python3
"""Times calls of single crates by programs of their own."""
from lizdrog_dev.time_crates import main

raise SystemExit(main())
