#!/usr/bin/env python3
"""Builds the program without proof and without checks at run time, to measure what the proved one costs."""
from lizdrog_dev.unchecked_build import main

raise SystemExit(main())
