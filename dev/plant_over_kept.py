#!/usr/bin/env python3
"""Plants wrong bodies in crates over what this machine has proved before."""
from lizdrog_dev.plant_over_kept import main

raise SystemExit(main())
