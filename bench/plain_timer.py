#!/usr/bin/env python3
"""Runs the tests of the plain timer."""
from lizdrog_dev.plain_timer import main

raise SystemExit(main())
