#!/usr/bin/env python3
"""Runs scripts at several corners of a design and merges the answers."""
from lizdrog_tools.corners.command import main

raise SystemExit(main())
