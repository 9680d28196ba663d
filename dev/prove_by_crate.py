#!/usr/bin/env python3
"""Proves crates one after the other, several beside each other."""
from lizdrog_dev.prove_by_crate import main

raise SystemExit(main())
