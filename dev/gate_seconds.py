#!/usr/bin/env python3
"""Says what the gate costs: processor seconds by crate, and by function."""
from lizdrog_dev.gate_seconds import main

raise SystemExit(main())
