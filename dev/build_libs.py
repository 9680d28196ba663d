#!/usr/bin/env python3
"""Proves and builds every library, each as soon as those below it are built."""
from lizdrog_dev.build_libs import main

raise SystemExit(main())
