#!/usr/bin/env python3
"""Brings a design as synthesis and layout tools write it to what Lizdrog reads."""
from lizdrog_tools.importing.command import main

raise SystemExit(main())
