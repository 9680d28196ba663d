#!/usr/bin/env python3
"""Says where a refused document is at fault and why."""
from lizdrog_tools.explain_fault import main

raise SystemExit(main())
