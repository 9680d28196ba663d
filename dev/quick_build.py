#!/usr/bin/env python3
"""Builds the program without any proof, in minutes."""
from lizdrog_tools.quick_build import main

raise SystemExit(main())
