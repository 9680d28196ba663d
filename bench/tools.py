#!/usr/bin/env python3
"""Times the tools that read whole designs."""
from lizdrog_dev.tool_seconds import main

raise SystemExit(main())
