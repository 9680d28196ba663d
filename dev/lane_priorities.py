#!/usr/bin/env python3
"""Processors for the proofs that others wait for."""
from lizdrog_dev.lane_priorities import main

raise SystemExit(main())
