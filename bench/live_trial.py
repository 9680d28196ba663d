#!/usr/bin/env python3
"""Tries a live server as people use it, and kills it."""
from lizdrog_dev.live_trial import main

raise SystemExit(main())
