#!/usr/bin/env python3
"""Guesses from the text which functions are dear to prove."""
from lizdrog_dev.exits import main

raise SystemExit(main())
