# The commands of constraints, each of which asks the importer. It is read before the files of a project.
namespace eval ::lizdrog {}

# The line of the project's files from which a command comes.
proc ::lizdrog::where {} {
    for {set level [info frame]} {$level > 0} {incr level -1} {
        set frame [info frame $level]
        if {[dict get $frame type] eq "source" && [dict get $frame file] ne $::lizdrog::prelude} {
            return [list [dict get $frame file] [dict get $frame line]]
        }
    }
    return [list "" 0]
}

proc ::lizdrog::call {name words} {
    return [::lizdrog::ask [concat [list $name] [::lizdrog::where] $words]]
}

proc ::lizdrog::define {names} {
    foreach name $names {
        proc ::$name args "return \[::lizdrog::call [list $name] \$args\]"
    }
}

proc ::foreach_in_collection {variable collection body} {
    uplevel 1 [list foreach $variable [::lizdrog::call flatten [list $collection]] $body]
}

proc ::append_to_collection {variable args} {
    upvar 1 $variable held
    if {![info exists held]} { set held "" }
    set unique [lsearch -exact $args -unique]
    if {$unique >= 0} { set args [lreplace $args $unique $unique] }
    set held [::lizdrog::call add_to_collection [concat [list $held] $args [expr {$unique >= 0 ? "-unique" : ""}]]]
}

rename ::source ::lizdrog::read_file
proc ::source {args} {
    set file [::lizdrog::call source [list [lindex $args end]]]
    uplevel 1 [list ::lizdrog::read_file -encoding iso8859-1 $file]
}

# Indexes such as a[3] and a[*] are no commands.
proc ::unknown {args} {
    set word [lindex $args 0]
    if {[llength $args] == 1 && [regexp {^[-0-9*?:]+$} $word]} { return "\[$word\]" }
    return [::lizdrog::call unknown-command $args]
}

proc ::lizdrog::run {file} {
    if {[catch {uplevel #0 [list ::lizdrog::read_file -encoding iso8859-1 $file]} message options]} {
        return [list error $message [dict get $options -errorinfo]]
    }
    return [list ok]
}
