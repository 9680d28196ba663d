#!/usr/bin/env python3
"""Times corners in a pool and one by one."""
from lizdrog_dev.corner_seconds import main

raise SystemExit(main())
