#!/usr/bin/env python3
"""Serves a design to clients: `lizdrog serve` starts this."""
from lizdrog_tools import ending


def main() -> int:
    """Heeds signals before it reads what takes time."""
    ending.heed("lizdrog serve", " before a server was started", ending.ALL)
    from lizdrog_tools.live import serve
    return serve.main()


raise SystemExit(main())
