#!/usr/bin/env python3
"""Measures Lizdrog beside OpenSTA on real netlists, in alternating runs."""
from lizdrog_dev.real import main

raise SystemExit(main())
