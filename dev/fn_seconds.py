#!/usr/bin/env python3
"""Measures the processor seconds of each function's proof in one crate."""
from lizdrog_dev.fn_seconds import main

raise SystemExit(main())
