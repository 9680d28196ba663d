#!/usr/bin/env python3
"""Says which module of a function's proof took the time."""
from lizdrog_dev.module_seconds import main

raise SystemExit(main())
