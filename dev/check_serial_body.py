#!/usr/bin/env python3
"""Shows that tests refuse bodies that the contracts let through."""
from lizdrog_dev.check_serial_body import main

raise SystemExit(main())
