#!/usr/bin/env python3
"""Joins a script with the output of its run."""
from lizdrog_tools.read_answers import main

raise SystemExit(main())
