#!/usr/bin/env python3
"""Imports designs as tools write them, and compares all endpoints with OpenSTA on the originals."""
from lizdrog_dev.import_check import main

raise SystemExit(main())
