#!/usr/bin/env python3
"""The public calls of crates with the names of their clauses."""
from lizdrog_dev.clause_names import main

raise SystemExit(main())
