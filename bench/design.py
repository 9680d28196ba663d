#!/usr/bin/env python3
"""Makes a design of many cells."""
from lizdrog_dev.design import main

raise SystemExit(main())
