#!/usr/bin/env python3
"""Draws the fan-ins of a case of crates/kernel_rows, and solves them by trying every walk.

    dev/draw_fan_ins.py           prints each row with its answer, as crates/kernel_rows/stdin and stdout have them
    dev/draw_fan_ins.py --check   tells whether these two files have the same rows and answers

The case is drawn_fan_ins_agree_with_a_pass_over_all_arcs. A fan-in has nine nodes, arcs from nodes of higher numbers
with delays from -30 to 69, and an offer at about half of its nodes. Each is asked for twice: with the nearest bounds,
and with bounds that are looser by 25 at each node of a walk."""

import argparse
import pathlib
import sys

CRATE = pathlib.Path(__file__).resolve().parent.parent / "crates" / "kernel_rows"
CASE = "case bounded_slacks drawn_fan_ins_agree_with_a_pass_over_all_arcs"
SEEDS, NODES, WORD = 40, 9, (1 << 64) - 1


def lot(seed, one, other):
    """A number as if drawn by lot, below 2^31."""
    mixed = (seed * 6364136223846793005 + one * 1442695040888963407 + other * 3935559000370003845) & WORD
    return (((mixed ^ (mixed >> 29)) * 0xBF58476D1CE4E5B9) & WORD) >> 33


def arcs_into(seed, node):
    """The arcs into a node, each by the node that it leads from and its delay."""
    before = (it for it in range(node + 1, NODES) if lot(seed, node, it) % 3 == 0)
    return [(it, lot(seed, it, node) % 100 - 30) for it in before]


def drawn_offers(seed):
    """What each node offers, or none."""
    drawn = (lot(seed, node, 1 << 40) for node in range(NODES))
    return [None if it % 2 == 0 else it % 1000 for it in drawn]


def slacks(arcs, offers, node, delay):
    """The slack of each walk to a node, less the delay after it."""
    if offers[node] is not None:
        yield offers[node] - delay
    for before, more in arcs[node]:
        yield from slacks(arcs, offers, before, delay + more)


def bounds_of(arcs, offers, loose):
    """A bound of each node: the nearest one, less some looseness for each node of a walk."""
    bounds = [None] * NODES
    for node in reversed(range(NODES)):
        near = [bounds[before] - delay for before, delay in arcs[node] if bounds[before] is not None]
        near += [offers[node]] if offers[node] is not None else []
        bounds[node] = min(near) - loose if near else None
    return bounds


def shown(numbers):
    return " ".join("-" if it is None else str(it) for it in numbers)


def rows():
    """Each row with its answer."""
    for seed in range(SEEDS):
        arcs, offers = [arcs_into(seed, node) for node in range(NODES)], drawn_offers(seed)
        least = min(slacks(arcs, offers, 0, 0), default=None)
        into = " / ".join(", ".join(f"{before} {delay}" for before, delay in node) or "-" for node in arcs)
        for loose in (0, 25):
            row = f"fans 0; {into}; {shown(offers)}; {shown(bounds_of(arcs, offers, loose))}"
            yield row, "none" if least is None else str(least)


def rows_there(name):
    """The lines after those of the case in a file of the crate."""
    lines = (CRATE / name).read_text(encoding="utf-8", errors="replace").splitlines()
    return [lines[at + 1] for at, line in enumerate(lines[:-1]) if line.startswith(CASE)]


def main():
    parser = argparse.ArgumentParser(description=__doc__, formatter_class=argparse.RawDescriptionHelpFormatter)
    parser.add_argument("--check", action="store_true", help="compare with the files of the crate")
    if parser.parse_args().check:
        same = list(zip(rows_there("stdin"), rows_there("stdout"), strict=True)) == list(rows())
        print("the same rows and answers" if same else "other rows or answers than those of crates/kernel_rows")
        sys.exit(0 if same else 1)
    for number, (row, least) in enumerate(rows(), 1):
        print(f"{CASE} {number}", row, least, sep="\n")


if __name__ == "__main__":
    main()
