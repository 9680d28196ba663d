"""Writes a script that asks the slack of every endpoint: endpoint_questions.py LIBRARY NETLIST [--kind setup|hold]
[--part N] >SCRIPT

Endpoints are the data pins of registers and the output ports. A script has at most 10,000 commands; of a design with
more questions
--part N gives the N-th 10,000, from 1, and standard error says how many parts there are.
"""
import argparse
import sys

from lizdrog_tools.files import tool
from lizdrog_tools.liberty import read_library
from lizdrog_tools.verilog import Joined, read_netlist

MOST = 10000


@tool("endpoint_questions")
def main():
    parser = argparse.ArgumentParser(description=__doc__, formatter_class=argparse.RawDescriptionHelpFormatter)
    parser.add_argument("library")
    parser.add_argument("netlist")
    parser.add_argument("--kind", choices=["setup", "hold"])
    parser.add_argument("--part", type=int, default=1)
    given = parser.parse_args()
    joined = Joined(read_netlist(given.netlist), read_library(given.library))
    kinds = [given.kind] if given.kind else ["setup", "hold"]
    lines = [f"report_endpoint {pin} {kind}" for kind in kinds for pin in joined.endpoints()]
    parts = max(1, -(-len(lines) // MOST))
    if parts > 1:
        print(f"endpoint_questions: {len(lines)} questions, part {given.part} of {parts}", file=sys.stderr)
    if not 1 <= given.part <= parts:
        parser.error(f"there {'are' if parts > 1 else 'is'} {parts} part{'s' * (parts > 1)}")
    for line in lines[(given.part - 1) * MOST:given.part * MOST]:
        print(line)
