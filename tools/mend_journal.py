#!/usr/bin/env python3
"""Tells whether a saved journal is torn, and cuts a torn last block off."""
from lizdrog_tools.mend_journal import main

raise SystemExit(main())
