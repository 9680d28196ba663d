#!/usr/bin/env python3
"""Checks one crate over the contracts of those below it."""
from lizdrog_dev.check_over_stubs import main

raise SystemExit(main())
