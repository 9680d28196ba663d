#!/usr/bin/env python3
"""What must be read to know what `serve` says."""
from lizdrog_dev.audit_words import main

raise SystemExit(main())
