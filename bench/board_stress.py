#!/usr/bin/env python3
"""Tries the board of versions with many threads."""
from lizdrog_dev.board_stress import main

raise SystemExit(main())
