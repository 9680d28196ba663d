#!/usr/bin/env python3
"""Writes one page of the answers of corners, or of one run."""
from lizdrog_tools.reporting.command import main

raise SystemExit(main())
