#!/usr/bin/env python3
"""Looks over the documents of a design for what is accepted but probably not meant."""
from lizdrog_tools.check_setup import main

raise SystemExit(main())
