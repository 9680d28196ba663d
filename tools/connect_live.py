#!/usr/bin/env python3
"""A prompt at a live server: `lizdrog connect` starts this."""
from lizdrog_tools.live.connect import main

raise SystemExit(main())
