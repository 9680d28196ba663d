#!/usr/bin/env python3
"""Compares the program with the plain timer on random designs and scripts."""
from lizdrog_dev.compare import main

raise SystemExit(main())
