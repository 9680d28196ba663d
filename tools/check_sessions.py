#!/usr/bin/env python3
"""Checks the output of several sessions by a run of one."""
from lizdrog_tools.check_sessions import main

raise SystemExit(main())
