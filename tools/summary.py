#!/usr/bin/env python3
"""Sums up a design at each of its corners."""
from lizdrog_tools.reporting.summary import main

raise SystemExit(main())
