#!/usr/bin/env python3
"""Checks one crate over what this machine has proved before."""
from lizdrog_dev.check_over_kept import main

raise SystemExit(main())
