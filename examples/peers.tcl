# Two peers of one text, and a dump of each: what examples/peers.c does, in Tcl without a display.
#
#     TCLLIBPATH=tcl tclsh8.6 examples/peers.tcl

package require tktext

tktext::text .a -undo 1
.a insert 1.0 [join {one two three} \n]
.a peer create .b -startline 2
.b tag add bold 1.0 1.end
.b insert 1.0 "number "
foreach widget {.a .b} {
    puts $widget
    foreach {kind value place} [$widget dump 1.0 end] {
        puts "  $place $kind [list $value]"
    }
}
catch {.b index nowhere} error
puts $error
