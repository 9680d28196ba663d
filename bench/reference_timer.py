#!/usr/bin/env python3
"""The plain timer: a whole analysis in plain Python, for comparisons."""
from lizdrog_dev.reference_timer import main

raise SystemExit(main())
