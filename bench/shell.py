#!/usr/bin/env python3
"""Times the whole program on a generated design."""
from lizdrog_dev.shell import main

raise SystemExit(main())
