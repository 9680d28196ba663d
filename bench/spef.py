#!/usr/bin/env python3
"""Writes parasitics for the nets of a design."""
from lizdrog_dev.spef import main

raise SystemExit(main())
