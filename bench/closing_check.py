#!/usr/bin/env python3
"""Compares answers to questions for closing timing with OpenSTA on designs of a folder."""
from lizdrog_dev.closing_check import main

raise SystemExit(main())
