#!/usr/bin/env python3
"""Times a whole run on a chain of inverters."""
from lizdrog_dev.chain import main

raise SystemExit(main())
