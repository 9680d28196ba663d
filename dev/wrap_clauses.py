#!/usr/bin/env python3
"""Breaks clauses that are wider than 100 columns into lines."""
from lizdrog_dev.wrap_clauses import main

raise SystemExit(main())
