#!/usr/bin/env python3
"""Writes the parasitics of a net of a SPEF as a line of a script."""
from lizdrog_tools.net_parasitics import main

raise SystemExit(main())
