#!/usr/bin/env python3
"""Tries the program on damaged documents."""
from lizdrog_dev.damaged_documents import main

raise SystemExit(main())
