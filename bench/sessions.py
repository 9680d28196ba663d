#!/usr/bin/env python3
"""Times sessions beside each other against one session."""
from lizdrog_dev.sessions import main

raise SystemExit(main())
