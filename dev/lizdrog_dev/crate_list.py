"""What crates.txt says: each crate, and what it uses."""
from lizdrog_tools.places import TOP


def uses_of_crates() -> dict[str, list[str]]:
    """What each crate uses, lowest crate first."""
    uses = {}
    for line in (TOP / "crates.txt").read_text(encoding="utf-8").splitlines():
        line = line.split("#")[0].strip()
        if line:
            name, below = line.split(":")
            uses[name.strip()] = below.split()
    return uses


def crates_below(uses: dict[str, list[str]], name: str) -> list[str]:
    """The crates of this repository under one, lowest first."""
    found: list[str] = []
    for used in uses[name]:
        if used in uses:
            found += [it for it in [*crates_below(uses, used), used] if it not in found]
    return found
