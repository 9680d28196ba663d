#!/usr/bin/env python3
"""Tries the edits that stand outside the gate."""
from lizdrog_dev.must_fail import main

raise SystemExit(main())
