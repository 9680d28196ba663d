#!/usr/bin/env python3
"""Turns the ECOs of a journal into a script, or into Tcl for layout tools."""
from lizdrog_tools.convert_journal import main

raise SystemExit(main())
