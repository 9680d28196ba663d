# The same documents in OpenSTA: sta -exit opensta.tcl
read_liberty osu018_stdcells.lib
read_verilog netlist.v
link_design pulse_width
read_sdc pulse_width.sdc
set_propagated_clock [all_clocks]
read_spef netlist.spef
report_checks -path_delay max -format full_clock_expanded -digits 3
report_checks -path_delay min -digits 3
report_tns -digits 3
