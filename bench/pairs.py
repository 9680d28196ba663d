#!/usr/bin/env python3
"""Times whole runs of one program, or of two beside each other, in pairs."""
from lizdrog_dev.pairs import main

raise SystemExit(main())
