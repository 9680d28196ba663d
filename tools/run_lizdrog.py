#!/usr/bin/env python3
"""Runs Lizdrog: `lizdrog` starts this."""
from lizdrog_tools.run_lizdrog import main

raise SystemExit(main())
