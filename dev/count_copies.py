#!/usr/bin/env python3
"""Lists functions that are in two or more crates to the letter."""
from lizdrog_dev.count_copies import main

raise SystemExit(main())
