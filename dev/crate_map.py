#!/usr/bin/env python3
"""The map of the crates, as crates.txt has it."""
from lizdrog_dev.crate_map import main

raise SystemExit(main())
