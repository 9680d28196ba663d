#!/usr/bin/env python3
"""Tries the wrong bodies of crates on the functions that they change."""
from lizdrog_dev.try_edits import main

raise SystemExit(main())
