#!/usr/bin/env bash
# Makes the example anew: the library is copied from Debian's package qflow-tech-osu018, yosys maps pulse_width.v to it, and
# bench/spef.py estimates the wires. `make.sh library` only copies the library, which is all that a run of the example needs.
# Another version of yosys may give other names to the gates; the scripts then name gates that are not there.
set -eu
cd "$(dirname "$(readlink -f "$0")")"
library=osu018_stdcells.lib
cp "/usr/share/qflow/tech/osu018/$library" . || { echo "make.sh: apt-get install qflow-tech-osu018 brings the library" >&2; exit 1; }
[ "${1:-all}" = library ] && exit 0
yosys -q -p "
  read_liberty -lib -ignore_miss_func $library
  read_verilog pulse_width.v
  synth -top pulse_width -flatten
  dfflibmap -liberty $library
  abc -liberty $library
  opt_clean -purge
  insbuf -buf BUFX2 A Y
  write_verilog -noattr -noexpr netlist.v"
python3 ../../bench/spef.py "$library" netlist.v >netlist.spef
