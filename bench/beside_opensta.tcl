# What bench/real.py has OpenSTA do: it reads a design so that it means what it means to Lizdrog, asks for the worst slack, goes through a list,
# and prints what that took. FOLDER and NAME say which design, LIBRARY the name of the early library, WORK and LIST what is done. Nanoseconds of
# processors are those that the kernel counts.
set sta_crpr_enabled 1
set sta_crpr_mode same_transition
read_liberty -min $env(FOLDER)/early.lib
read_liberty -max $env(FOLDER)/late.lib
read_verilog $env(FOLDER)/$env(NAME).v
link_design $env(NAME)_top
set_operating_conditions -analysis_type on_chip_variation
sta::set_delay_calculator simple_rc
read_sdc $env(FOLDER)/$env(NAME).sdc
set_units -time ns -capacitance pF
read_spef -quiet $env(FOLDER)/$env(NAME).spef

proc spent {} {
  set file [open /proc/self/schedstat]
  set words [read $file]
  close $file
  return [lindex $words 0]
}
proc worst {} { return [sta::worst_slack_cmd max] }
proc resized {inst cell} { replace_cell $inst [get_lib_cells $::env(LIBRARY)/$cell] }
# `insert_buffer` itself is listed by this version's help, and is not there.
proc buffered {net inst pin new net_of_new} {
  set from [get_nets $net]
  disconnect_pin $from [get_pins $inst/$pin]
  make_net $net_of_new
  make_instance $new $::env(LIBRARY)/BUFX2
  connect_pin $from $new/A
  connect_pin $net_of_new $new/Y
  connect_pin $net_of_new $inst/$pin
}
proc told {pin count} {
  report_checks -path_delay max -to [get_pins $pin] -endpoint_count $count -group_count $count -digits 6 > /dev/null
}
proc done {work words} {
  switch $work {
    resize - clock { resized {*}$words; worst }
    silent { resized {*}$words }
    buffer { buffered {*}$words; worst }
    path { told {*}$words 1 }
    paths { told {*}$words 20 }
  }
}

worst
set lines {}
if { $env(WORK) ne "load" } {
  set file [open $env(LIST)]
  set lines [split [string trim [read $file]] "\n"]
  close $file
}
# The first question about a path makes what the later ones use.
if { $env(WORK) in {path paths} } { done $env(WORK) [lindex $lines 0] }
set processors [spent]
set began [clock microseconds]
foreach line $lines { done $env(WORK) [split $line " "] }
set slack [worst]
puts "spent [expr {[spent] - $processors}] [expr {1000 * ([clock microseconds] - $began)}] [sta::format_time $slack 6]"
