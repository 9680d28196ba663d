#!/usr/bin/env python3
"""Writes a script that asks the slack of every endpoint."""
from lizdrog_tools.endpoint_questions import main

raise SystemExit(main())
