#!/usr/bin/env python3
"""Sizes of the pages."""
from lizdrog_dev.page_sizes import main

raise SystemExit(main())
