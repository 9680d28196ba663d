#!/usr/bin/env python3
"""Times ECOs with the report of the worst slack behind each."""
from lizdrog_dev.ecos import main

raise SystemExit(main())
