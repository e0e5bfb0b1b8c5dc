#!/usr/bin/env python3
"""Cases of the Tcl extension (tcl/tktext.c): commands that are renamed, hidden or traced, reports, and lengths.

    python3 tools/tcl_cases.py --extension out/tktext.so [--small out/small_tktext.so] [--refused out/refused_tktext.so]

Each case is a script for a process of its own, under valgrind where it is installed, and what it prints; a crash or a
wrong access is a failed case, and its script is shown.  Answers that Tcl can't hold take 20 GB to try, so the extension
that `--small` names is built with a small number instead of the maximum number of bytes of a value (TKTEXT_MOST_BYTES,
here 10,000): it is compared at the same one place.  The extension that `--refused` names is built with
tools/refuse_calls.c, which refuses growths of memory.  Ends in a line `N passed, M failed`; the exit status is 1 if
anything failed.
"""

import argparse
import os
import shutil
import subprocess
import sys
import tempfile

from harness import LONG_TIMEOUT_SECONDS, Tally

# The most bytes of a value in the small extension.
MOST_BYTES = 10_000
TCLSH = "tclsh8.6"
VALGRIND = ["valgrind", "-q", "--error-exitcode=9"]
HEAD = r"""
load [lindex $argv 0] Tktext
fconfigure stdout -encoding utf-8 -translation lf
# What a script gives, and the code of its error.
proc tried {script} {
    if {[catch {uplevel #0 $script} said options]} {
        set said "error: $said ([dict get $options -errorcode])"
    }
    puts $said
}
"""

# A widget's command is renamed and a procedure stands in its place; it goes with the widget, which can be made again.
WRAPPED = r"""
proc make {} { tktext::text .t; rename .t ._t; proc .t args { uplevel 1 [linsert $args 0 ._t] } }
make
.t insert 1.0 first
tktext::destroy .t
puts [list [info commands ._t] [info commands .t]]
tried make
.t insert 1.0 second
catch {rename ._t {}}
tried {.t get 1.0 end}
# The stale command of an old one isn't there to take the new one away.
tktext::text .u
rename .u .v
tktext::destroy .u
tktext::text .u
catch {rename .v {}}
tried {.u insert 1.0 whole; .u get 1.0 1.end}
# A renamed command that goes takes its own widget with it, and no other.
rename .u .v
tried {tktext::text .u}
tktext::text .w
rename .v {}
tried {tktext::text .u}
tried {.w get 1.0}
"""
WRAPPED_PRINTS = """{} .t

error: invalid command name "._t" (TCL LOOKUP COMMAND ._t)
whole
error: window name ".u" already exists (TKTEXT FAULT {window name ".u" already exists})
.u


"""

# A copy follows a text by its changes alone, by whichever peer; what is called may fail, or take the widget away.
FOLLOWED = r"""
tktext::text .t -undo 1
.t peer create .p
set string "\n"
proc follow {who changes} {
    puts [list $who {*}[lmap change $changes {lrange $change 0 2}]]
    foreach change $changes {
        lassign $change at removed inserted
        set ::ends [lrange $change 3 end]
        set before [string range $::string 0 [expr {$at - 1}]]
        set ::string $before$inserted[string range $::string [expr {$at + $removed}] end]
    }
}
tktext::onchange .t {follow t}
puts [tktext::onchange .t]
.t insert 1.0 "one\ntwo\u00e9"
.p delete 1.1 1.2 2.0 2.1
puts [.t edit undo]
puts $ends
.t tag add x 1.0
tktext::ontags .t {apply {tags { puts [list tags {*}$tags] }}}
tktext::ontags .p {apply {tags { puts [list peer {*}$tags] }}}
.t tag add y 1.0 1.1
.t insert 1.1 a {y sel} b
.p tag remove y 1.0 1.2
tktext::ontags .t {}
.t delete 1.1 1.3
tktext::ontags .p {}
tktext::onmarks .t {puts}
puts [tktext::onmarks .t]
tktext::onmarks .p {apply {marks { puts [list p {*}$marks] }}}
.t mark set m 1.0
.t mark set m 1.0
.t mark gravity m left
.p mark set insert 1.1
.t edit undo
.t mark unset m n m
.t peer create .q
tktext::onmarks .t {}
tktext::destroy .q
.t mark set m 1.0
tktext::onmarks .p {}
tried {.t insert foo bar}
puts [expr {$string eq [.t get 1.0 end]}]
proc bgerror said { puts "background: $said" }
tktext::onchange .p {error bad}
.t insert end x
update
tktext::onchange .p {}
tktext::onchange .t {apply {changes { rename .t {} }}}
puts [list [.t insert end gone] [info commands .t]]
tried {.p get 1.0 1.end}
tried {tktext::onchange .t x}
tried {tktext::onchange .p "a {b}c"}
tried {tktext::onchange}
"""
FOLLOWED_PRINTS = """follow t
t {0 0 {one
twoé}}
t {4 1 {}} {1 1 {}}
t {3 0 t} {1 0 n}

{1 1 1 1} {1 1 1 1} {1 2 2 2}
peer {y 0 1 1}
tags {y 0 1 1}
peer {y 1 2 1}
t {1 0 ab}
tags {sel 1 2 1} {y 1 2 1}
peer {y 0 2 0}
tags {y 0 2 0}
t {1 2 {}}
puts
p {m {} {} {0 right}}
{m {} {} {0 right}}
p {m {} {0 right} {0 left}}
{m {} {0 right} {0 left}}
p {insert .p {8 right} {1 right}}
{insert .p {8 right} {1 right}}
p {insert .t {5 right} {3 right}}
t {1 0 ab}
{insert .t {5 right} {3 right}}
p {m {} {0 left} {}}
{m {} {0 left} {}}
p {insert .q {} {0 right}} {current .q {} {0 right}}
{insert .q {} {0 right}} {current .q {} {0 right}}
p {insert .q {0 right} {}} {current .q {0 right} {}}
p {m {} {} {0 right}}
error: bad text index "foo" (TKTEXT FAULT {bad text index "foo"})
1
t {10 0 x}
background: bad
{} {}
oabne
error: invalid command name ".t" (NONE)
error: list element in braces followed by "c" instead of space (TCL VALUE LIST JUNK)
error: wrong # args: should be "tktext::onchange window ?prefix?" (TCL WRONGARGS)
"""

# A copy of a text and of its tags, by the offsets in what is reported, and whether it equals the text of `.t`.
COPY = r"""
set copy "\n"
set tagged {{}}
# Where each mark is, and its gravity, by its name and the name of the widget whose own it is.
set marks {}
proc moved {place at removed inserted} {
    lassign $place offset gravity
    set offset [expr {min($offset, $at) + max($offset - $at - $removed, 0)}]
    if {$offset > $at || ($offset == $at && $gravity eq "right")} { incr offset [string length $inserted] }
    return [list $offset $gravity]
}
proc follow {changes} {
    foreach change $changes {
        lassign $change at removed inserted
        set rest [expr {$at + $removed}]
        set ::copy [string range $::copy 0 [expr {$at - 1}]]$inserted[string range $::copy $rest end]
        set new [lrepeat [string length $inserted] {}]
        set ::tagged [concat [lrange $::tagged 0 [expr {$at - 1}]] $new [lrange $::tagged $rest end]]
        dict for {key place} $::marks { dict set ::marks $key [moved $place $at $removed $inserted] }
    }
}
proc follow_marks {changes} {
    foreach change $changes {
        lassign $change mark widget old new
        set key [list $mark $widget]
        if {$new eq ""} { dict unset ::marks $key } else { dict set ::marks $key $new }
    }
}
# The marks of the text that `.t` has, as `follow_marks` keeps them.
proc marks_of {} {
    set marks {}
    foreach {kind mark index} [.t dump -mark 1.0 end] {
        set place [list [string length [.t get 1.0 $index]] [.t mark gravity $mark]]
        dict set marks [list $mark [expr {$mark in {insert current} ? ".t" : ""}]] $place
    }
    return $marks
}
proc sorted {marks} { lsort -stride 2 [dict filter $marks script {key place} { expr {[lindex $key 1] in {{} .t}} }] }
proc follow_tags {changes} {
    foreach change $changes {
        lassign $change tag from to on
        for {set at $from} {$at < $to} {incr at} {
            set tags [lsearch -all -inline -not -exact [lindex $::tagged $at] $tag]
            lset ::tagged $at [lsort [expr {$on ? [concat $tags $tag] : $tags}]]
        }
    }
}
# The tags of each character of the text, as `follow_tags` keeps them.
proc tags_of {text} {
    set tagged [lrepeat [string length $text] {}]
    foreach tag [.t tag names] {
        foreach {from to} [.t tag ranges $tag] {
            set end [string length [.t get 1.0 $to]]
            for {set at [string length [.t get 1.0 $from]]} {$at < $end} {incr at} {
                lset tagged $at [lsort [concat [lindex $tagged $at] $tag]]
            }
        }
    }
    return $tagged
}
proc compare {} {
    set text [.t get 1.0 end]
    if {$::copy ne $text} { return [list copy $::copy text $text] }
    set tagged [tags_of $text]
    if {$::tagged ne $tagged} { return [list tags $::tagged text $tagged] }
    set marks [marks_of]
    if {$::marks ne "" && [sorted $::marks] ne [sorted $marks]} { return [list marks $::marks text $marks] }
    return same
}
"""

# Two followers of a text, in both orders, the one of which edits: a log that keeps three lines.
TRIMMED = COPY + r"""
proc trim {changes} {
    if {[lindex [split [.t index end] .] 0] > 4} { .t delete 1.0 2.0 }
}
tktext::text .t
.t peer create .p
foreach {trimming following} {.t .p .p .t} {
    foreach widget {.t .p} {
        tktext::onchange $widget {}
        tktext::ontags $widget {}
    }
    .t delete 1.0 end
    set copy [.t get 1.0 end]
    set tagged [tags_of $copy]
    tktext::onchange $trimming trim
    tktext::onchange $following follow
    tktext::ontags $following follow_tags
    foreach word {one two three four five six} { .p insert end $word\n $word }
    puts "$trimming edits, $following follows: [compare]"
}
"""
TRIMMED_PRINTS = """.t edits, .p follows: same
.p edits, .t follows: same
"""

# The order of reports, where followers edit, and set and end followers: a report goes to all its followers before the
# next, and only to those that were set before its command and are still set.
QUEUED = r"""
proc log {who list} {
    puts [list $who {*}[lmap it $list {lrange $it 0 3}]]
    return "not the command's"
}
proc edit {list} {
    log t $list
    if {[incr ::count] == 1} {
        .t delete 1.0 1.2
        puts "within: [list [.t get 1.0 end]]"
        .p tag add late 1.0
        .p mark set m 1.1
    }
}
tktext::text .t -undo 1
.t peer create .p
tktext::onchange .t edit
tktext::ontags .t {log tags}
tktext::onchange .p {log p}
tktext::ontags .p {log p-tags}
tktext::onmarks .p {log p-marks}
puts "result: [.t insert 1.0 abcdef early]"
# One that is set in a follower gets reports of later commands alone; one that is replaced or ended gets none any more.
proc replace {list} {
    log old $list
    .t insert end 1
    tktext::onchange .t {log new}
    tktext::onchange .p {}
    .t insert end 2
    tktext::onchange .u {log u}
}
foreach way {onchange ontags onmarks} {
    foreach widget {.t .p} { tktext::$way $widget {} }
}
.t peer create .u
tktext::onchange .t replace
tktext::onchange .p {log p}
.t insert end 0
.t insert end 3
# A widget that is destroyed, made again and followed gets nothing of what was before.
proc destroy {list} {
    log u $list
    tktext::onchange .u {}
    .t insert end 4
    tktext::destroy .t
    .p peer create .t
    tktext::onchange .t {log again}
    .p insert end 5
}
tktext::onchange .t {log t}
tktext::onchange .u destroy
.p insert end x
tktext::destroy .u
.p insert end 6
# So does one whose command is still to be deleted.
foreach widget {.d .e} { .p peer create $widget }
tktext::onchange .d {log destroyed}
trace add command .e delete {apply {args {.p insert end 7}}}
tktext::destroy .d .e
# Those of another text wait too, and a command that is refused, or that an event brings, changes no order.
tktext::text .o
tktext::onchange .o {log other}
tktext::onchange .t {apply {list {
    catch {.o insert nowhere x}
    .o insert end x
    after 0 {.p insert end z; set ::done 1}
    vwait ::done
    log t $list
    tktext::onchange .t {log t}
}}}
.p insert end y
"""
QUEUED_PRINTS = """p {0 0 abcdef {1 0 0 0}}
p-tags {early 0 6 1}
t {0 0 abcdef {1 0 0 0}}
within: {cdef
}
tags {early 0 6 1}
p {0 2 {} {1 0 0 0}}
t {0 2 {} {1 0 0 0}}
p-tags {late 0 1 1}
tags {late 0 1 1}
p-marks {m {} {} {1 right}}
result: 
p {4 0 0 {1 4 4 4}}
old {4 0 0 {1 4 4 4}}
new {6 0 2 {1 6 6 6}}
u {7 0 3 {1 7 7 7}}
new {7 0 3 {1 7 7 7}}
u {8 0 x {1 8 8 8}}
again {10 0 5 {1 10 10 10}}
again {11 0 6 {1 11 11 11}}
again {12 0 7 {1 12 12 12}}
t {13 0 y {1 13 13 13}}
other {0 0 x {1 0 0 0}}
"""

# Followers that destroy, rename and delete what calls them, down to the interpreter.  What can be delivered still is:
# the numbers are how often the other followers of `.t` and of `.p` were called.
DESTRUCTIVE = r"""
set bodies {
    {tktext::destroy .t} {rename .t {}} {tktext::destroy .p} {rename .p {}} {tktext::destroy .t .p} {rename .t .v}
    {tktext::onchange .t {}} {tktext::onchange .p {}} {namespace delete ::tktext}
    {tktext::destroy .t; tktext::text .t} {.p insert 1.0 y; tktext::destroy .p .t} {.p insert 1.0 y; kill} kill
    {proc .t args {}} {interp hide {} .t} {interp bgerror {} {apply {args kill}}; error bad} {error bad; .p index}
}
foreach name {.t .p} {
    foreach body $bodies {
        interp create child
        load [lindex $argv 0] Tktext child
        child alias kill interp delete child
        child eval {
            interp bgerror {} list
            tktext::text .t -undo 1
            .t peer create .p
            tktext::text .u
            proc count {widget list} { incr ::called$widget }
            foreach way {onchange ontags onmarks} {
                foreach widget {.t .p} { tktext::$way $widget [list count $widget] }
            }
            set called.t [set called.p 0]
        }
        # Each does it once, so that there is an end.
        child eval [list tktext::onchange $name "apply {list {if {\[incr ::count\] == 1} {$body}}}"]
        set said [catch {child eval {.t insert end "a b" k "c" m; .t mark set q 1.0; .p insert end z; .t edit undo}}]
        set kept [catch {child eval {update; .u insert end x; list [.u get 1.0 1.end] ${called.t} ${called.p}}} text]
        puts "$name, $body: $said [expr {$kept ? {gone} : $text}]"
        catch {interp delete child}
    }
}
"""
DESTRUCTIVE_PRINTS = """.t, tktext::destroy .t: 1 x 0 3
.t, rename .t {}: 1 x 0 3
.t, tktext::destroy .p: 1 x 3 2
.t, rename .p {}: 1 x 3 2
.t, tktext::destroy .t .p: 1 x 0 2
.t, rename .t .v: 1 x 1 2
.t, tktext::onchange .t {}: 0 x 2 5
.t, tktext::onchange .p {}: 0 x 2 3
.t, namespace delete ::tktext: 0 x 2 5
.t, tktext::destroy .t; tktext::text .t: 0 x 0 4
.t, .p insert 1.0 y; tktext::destroy .p .t: 1 x 0 2
.t, .p insert 1.0 y; kill: 1 gone
.t, kill: 1 gone
.t, proc .t args {}: 0 x 0 4
.t, interp hide {} .t: 1 x 1 2
.t, interp bgerror {} {apply {args kill}}; error bad: 0 gone
.t, error bad; .p index: 0 x 2 5
.p, tktext::destroy .t: 1 x 0 2
.p, rename .t {}: 1 x 0 2
.p, tktext::destroy .p: 1 x 4 0
.p, rename .p {}: 1 x 4 0
.p, tktext::destroy .t .p: 1 x 0 0
.p, rename .t .v: 1 x 2 1
.p, tktext::onchange .t {}: 0 x 2 2
.p, tktext::onchange .p {}: 0 x 5 2
.p, namespace delete ::tktext: 0 x 5 2
.p, tktext::destroy .t; tktext::text .t: 0 x 0 2
.p, .p insert 1.0 y; tktext::destroy .p .t: 1 x 0 0
.p, .p insert 1.0 y; kill: 1 gone
.p, kill: 1 gone
.p, proc .t args {}: 0 x 0 2
.p, interp hide {} .t: 1 x 2 1
.p, interp bgerror {} {apply {args kill}}; error bad: 0 gone
.p, error bad; .p index: 0 x 5 2
"""

# Characters above U+FFFF, which Tcl 8.6 counts as two, through each kind of command that moves them.
WIDE = COPY + r"""
set smile \ud83d\ude00
tktext::text .t -undo 1
proc see {list} { puts [lmap it $list {lrange $it 0 5}] }
proc try {args} {
    uplevel #0 $args
    set same [compare]
    if {$same ne "same"} { puts "$args: $same" }
}
# What is inserted before there is a follower counts too, and what is then outside of the lines that the follower shows.
.t insert 1.0 a${smile}b\n${smile}c
set copy [.t get 1.0 end]
set tagged [tags_of $copy]
.t peer create .p -startline 2
tktext::onchange .p follow
tktext::ontags .p follow_tags
.t peer create .q
tktext::onchange .q see
tktext::ontags .q see
try .t edit separator
try .p insert 1.1 $smile x y y
try .p delete 1.0
try .t edit undo
try .t edit redo
try .t edit undo
try .t edit undo
try .t edit redo
try .t replace 1.0 1.2 $smile${smile}z \u00e9
try .t tag add w 1.1 1.3 2.0 2.1
try .t tag remove w 1.0 1.2
try .t delete 1.0 1.1 1.2 1.3 2.0 2.1
try .t edit undo
try .t insert 1.0 x {} $smile\n w
try .t delete 1.0 end
try .t edit undo
tktext::onchange .q {}
try .t insert 1.0 [string repeat a$smile 2000]
try .t insert 1.1000 -
tktext::onchange .q see
try .t delete 1.10 1.3990
puts [string length $copy]
# Another text of the world has its own.
tktext::text .o
tktext::onchange .o see
.o insert end ab
.o insert 1.1 $smile
.o insert end c
tktext::onmarks .o see
.o mark set m 1.3
.o mark set insert 1.2
.o replace 1.1 1.3 ${smile}${smile}${smile}x
.o delete 1.0 1.2
# The mark of a peer that is destroyed, beside one of another text.
.o peer create .r
.r mark set insert 1.end
tktext::destroy .p .r
"""
WIDE_PRINTS = """{7 0 \U0001f600y {2 1 4 2} {2 1 4 2} {2 3 9 5}}
{x 7 9 1} {y 9 10 1}
{5 2 {} {2 0 0 0} {2 1 4 2} {2 0 0 0}}
{5 0 \U0001f600 {2 0 0 0} {2 0 0 0} {2 1 4 2}}
{5 2 {} {2 0 0 0} {2 1 4 2} {2 0 0 0}}
{5 0 \U0001f600 {2 0 0 0} {2 0 0 0} {2 1 4 2}}
{7 3 {} {2 1 4 2} {2 3 9 5} {2 1 4 2}}
{7 0 \U0001f600y {2 1 4 2} {2 1 4 2} {2 3 9 5}}
{0 3 \U0001f600\U0001f600z {1 0 0 0} {1 2 5 3} {1 3 9 5}}
{é 0 5 1}
{w 7 9 1} {w 2 5 1}
{w 2 4 0}
{7 2 {} {2 0 0 0} {2 1 4 2} {2 0 0 0}} {4 1 {} {1 2 8 4} {1 3 9 5} {1 2 8 4}} {0 2 {} {1 0 0 0} {1 1 4 2} {1 0 0 0}}
{4 0 \U0001f600 {2 0 0 0} {2 0 0 0} {2 1 4 2}} {2 0 z {1 1 4 2} {1 1 4 2} {1 2 5 3}} \
{0 0 \U0001f600 {1 0 0 0} {1 0 0 0} {1 1 4 2}}
{0 0 {x\U0001f600
} {1 0 0 0} {1 0 0 0} {2 0 0 0}}
{w 1 4 1}
{0 17 {} {1 0 0 0} {3 4 10 6} {1 0 0 0}}
{0 0 {x\U0001f600
\U0001f600\U0001f600zb
\U0001f600\U0001f600yc} {1 0 0 0} {1 0 0 0} {3 4 10 6}}
{15 5969 {} {1 10 25 15} {1 3990 9972 5984} {1 10 25 15}}
50
{0 0 ab {1 0 0 0} {1 0 0 0} {1 2 2 2}}
{1 0 \U0001f600 {1 1 1 1} {1 1 1 1} {1 2 5 3}}
{4 0 c {1 3 6 4} {1 3 6 4} {1 4 7 5}}
{m {} {} {4 right}}
{insert .o {5 right} {3 right}}
{1 3 \U0001f600\U0001f600\U0001f600x {1 1 1 1} {1 3 6 4} {1 5 14 8}}
{insert .o {3 right} {3 right}}
{0 3 {} {1 0 0 0} {1 2 5 3} {1 0 0 0}}
{insert .r {} {0 right}} {current .r {} {0 right}}
{insert .r {0 right} {6 right}}
{insert .r {6 right} {}} {current .r {0 right} {}}
"""

# Random commands on a text with characters of all lengths, by it and two peers that show a part of it, with a copy of
# the text and its tags.  A third peer's follower edits too: it keeps the text short.
RANDOM = COPY + r"""
proc random {count} { expr {int(rand() * $count)} }
proc pick {list} { lindex $list [random [llength $list]] }
proc spot {} { return [expr {[random 5] + 1}].[random 7] }
proc words {} {
    set text ""
    for {set count [expr {[random 4] + 1}]} {$count > 0} {incr count -1} {
        append text [pick [list a bc \n \u00e9 \u2014 \ud83d\ude00 \ud834\udd1e\ud83d\ude00 \ud55c]]
    }
    return $text
}
proc tags {} { pick {{} x y {x y} {}} }
proc command {widget} {
    switch [random 14] {
        0 - 1 - 2 { return [list $widget insert [spot] [words] [tags]] }
        3 { return [list $widget insert [spot] [words] [tags] [words] [tags]] }
        4 { return [list $widget delete [spot] [spot]] }
        5 { return [list $widget delete [spot] [spot] [spot] [spot] [spot]] }
        6 { return [list $widget replace [spot] [spot] [words] [tags]] }
        7 { return [list $widget tag [pick {add remove}] [pick {x y}] [spot] [spot] [spot] [spot]] }
        8 { return [list $widget edit [pick {undo redo undo redo separator reset}]] }
        9 { return [list $widget configure -startline [pick {{} 2}] -endline [pick {{} 4}]] }
        10 { return [list $widget edit undo] }
        11 { return [list $widget edit redo] }
        12 { return [list $widget mark set [pick {m n insert current}] [spot]] }
        13 { return [list $widget mark {*}[pick {{unset m} {gravity m left} {gravity n left} {gravity insert left}}]] }
    }
}
proc shorten {changes} {
    if {[.t count -chars 1.0 end] > 60} { .t delete 1.5 1.9 2.0 "end - 20 chars" }
}
proc play {seed} {
    expr {srand($seed)}
    set ::copy "\n"
    set ::tagged {{}}
    tktext::text .t -undo 1
    foreach peer {.a .b .c} { .t peer create $peer }
    # Of the two that follow one was made before the one that edits, and one after it.
    set following [pick {.a .c}]
    if {[random 2]} {
        # What is there before anything follows.
        .t insert 1.0 [words][words]
        set ::copy [.t get 1.0 end]
        set ::tagged [tags_of $::copy]
    }
    set ::marks [marks_of]
    tktext::onchange $following follow
    tktext::ontags $following follow_tags
    tktext::onmarks $following follow_marks
    tktext::onchange .b shorten
    for {set number 0} {$number < $::commands} {incr number} {
        set command [command [pick {.t .a .c}]]
        if {[lindex $command 0] eq ".t" && [lindex $command 1] eq "configure"} continue
        catch $command
        set same [compare]
        if {$same ne "same"} {
            puts "seed $seed, $command: $same"
            break
        }
        incr ::compared
    }
    tktext::destroy .t .a .b .c
}
set compared 0
for {set seed 1} {$seed <= $seeds} {incr seed} { play $seed }
puts [expr {$compared > $seeds * $commands / 2}]
"""
# The number of seeds, of those under valgrind, which is slow, and of the commands of each.
RANDOM_SEEDS, RANDOM_WATCHED_SEEDS, RANDOM_COMMANDS = 300, 10, 40
RANDOM_PRINTS = "1\n"

# Each growth of each command refused in turn, those of a follower that edits too: nothing has changed, and once the
# command is given again the copy follows.  Where the list of a long text can't be made, a background error says so.
REFUSED = COPY + r"""
interp bgerror {} {apply {{said options} {
    if {[dict get $options -errorcode] ne {TKTEXT MEMORY}} { puts "background: $said" }
    incr ::missed
    begin
}}}
proc begin {} {
    set ::copy [.t get 1.0 end]
    set ::tagged [tags_of $::copy]
}
# Runs a script with no growth refused.
proc quietly {script} {
    set kept $::env(TKTEXT_REFUSE)
    set ::env(TKTEXT_REFUSE) ""
    set said [uplevel 1 $script]
    set ::env(TKTEXT_REFUSE) $kept
    return $said
}
proc state {} { quietly { list [.t get 1.0 end] [tags_of [.t get 1.0 end]] [.t mark names] } }
# Carries out a command, and again if a growth was refused to it.
proc give {args} {
    set old [state]
    # With this the report that was ready is used, so the command allocates another.
    quietly { .t mark set used 1.0; .t mark unset used }
    if {![catch {uplevel #0 $args} said options]} return
    set ::env(TKTEXT_REFUSE) ""
    incr ::refused
    if {[dict get $options -errorcode] ne {TKTEXT MEMORY}} { puts "$args: $said" }
    if {[state] ne $old} { puts "$args: something has changed" }
    uplevel #0 $args
}
proc shorten {changes} {
    if {[quietly { .t count -chars 1.0 end }] > 20} { give .t delete 1.0 "end - 10 chars" }
}
set smile \ud83d\ude00
set commands [list \
    [list .t insert 1.0 a${smile}b x\n y] {.t insert end c {x z}} {.t tag add x 1.1 1.2} {.p replace 1.0 1.2 d} \
    {.t edit undo} {.t edit redo} {.t mark set m 1.1} {.t delete 1.0 1.1 1.1 1.2} [list .t insert 1.0 $smile] \
    [list .p insert 1.0 [string repeat $smile 260]] {.t edit undo} {.t get 1.0 end}]
set missed [set refused [set serial 0]]
set env(TKTEXT_REFUSE) ""
for {set growth 1} {$growth < 200} {incr growth} {
    set before [expr {$refused + $missed}]
    tktext::text .t -undo 1
    .t peer create .p
    begin
    tktext::onchange .t follow
    tktext::ontags .t follow_tags
    tktext::onchange .p shorten
    foreach command $commands {
        set env(TKTEXT_REFUSE) [incr serial]:$growth
        give {*}$command
        set env(TKTEXT_REFUSE) ""
        update
        set same [compare]
        if {$same ne "same"} { puts "$command, growth $growth: $same" }
    }
    tktext::destroy .t .p
    if {$refused + $missed == $before} break
}
puts "[expr {$refused > 100}] [expr {$missed > 0}] [expr {$growth < 200}]"
"""
REFUSED_PRINTS = "1 1 1\n"

# The command of a destroyed widget doesn't come to act on a later one.
HIDDEN = r"""
interp create child
load [lindex $argv 0] Tktext child
child eval {tktext::text .h; .h insert 1.0 first}
child hide .h
tried {child invokehidden .h get 1.0 1.end}
child eval {tktext::destroy .h}
tried {child hidden}
child eval {tktext::text .h; .h insert 1.0 second}
tried {child invokehidden .h get 1.0 1.end}
tried {child eval {.h get 1.0 1.end}}
child hide .h
interp delete child
tktext::text .p
.p peer create .q
rename .q .r
tktext::destroy .q
tried {list [info commands .r] [.p peer names]}
"""
HIDDEN_PRINTS = """first

error: invalid hidden command name ".h" (TCL LOOKUP HIDDENTOKEN .h)
second
{} {}
"""

# Traces of a command's deletion make its widget again, destroy others, and call the command that goes.
TRACED = r"""
proc again {name how} {
    trace add command $name delete [list apply {{name args} {
        puts "in the trace: [catch {$name get 1.0} said]"
        tktext::text $name
        $name insert 1.0 again
    }} $name]
    {*}$how $name
    puts "[info commands $name] [catch {$name get 1.0 1.end} said] $said"
}
tktext::text .s
.s insert 1.0 first
again .s tktext::destroy
tktext::destroy .s
tried {.s get 1.0}
tktext::text .s
trace add command .s delete {apply {args {tktext::destroy .s; tktext::text .s; .s insert 1.0 again}}}
rename .s {}
tried {.s get 1.0 1.end}
# Two that are destroyed at once: the trace of the first makes the second again, or deletes its command.
tktext::text .a
tktext::text .b
trace add command .a delete {apply {args {tktext::text .b; .b insert 1.0 anew}}}
tktext::destroy .a .b
tried {.b get 1.0 1.end}
tktext::text .a
trace add command .a delete {apply {args {catch {rename .b {}}}}}
trace add command .b delete {apply {args {catch {rename .a {}}; tktext::text .c}}}
tktext::destroy .a .b
tried {lsort [info commands .?]}
tktext::destroy .a .b .c .s
tried {lsort [info commands .?]}
# A new widget whose command comes in the place of another's, which has a trace.
tktext::text .x
rename .x .y
trace add command .y delete {apply {args {tktext::destroy .y}}}
tried {tktext::text .y}
tried {.y get 1.0}
tktext::text .x
rename .x .y
trace add command .y delete {apply {args {tktext::destroy .y; tktext::text .y; .y insert 1.0 inner}}}
tried {tktext::text .y}
tried {.y get 1.0 1.end}
tried {tktext::destroy .y; tktext::text .y}
# A procedure is put in the place of a widget's command, whose trace makes the widget again: that one has no command.
trace add command .y delete {apply {args {tktext::destroy .y; tktext::text .y}}}
tried {proc .y {} {return mine}; .y}
tried {tktext::destroy .y; .y}
tried {tktext::text .y; .y get 1.0}
"""
TRACED_PRINTS = """in the trace: 1
.s 0 again
error: invalid command name ".s" (TCL LOOKUP COMMAND .s)
again
anew
.c .s

.y
error: invalid command name ".y" (TCL LOOKUP COMMAND .y)
.y
inner
.y
mine
mine


"""

# The interpreter or the package's commands go in the middle of a command (Tcl itself ends where an interpreter goes in
# a trace of a command's execution); names of many kinds.
ENDED = r"""
set bodies {
    {tktext::text .u; trace add command .t delete {apply {args kill}}; tktext::destroy .t .u}
    {trace add command .t delete {apply {args {namespace delete ::tktext}}}; tktext::destroy .t}
    {trace add execution .t enter {apply {args {rename .t {}}}}; .t get 1.0}
    {proc .w {} {}; trace add command .w delete {apply {args {tktext::destroy .t}}}; .t peer create .w; .w get 1.0}
    {trace add command .t delete {apply {args {tktext::text .u; kill}}}; rename .t {}}
}
foreach body $bodies {
    interp create child
    load [lindex $argv 0] Tktext child
    child alias kill interp delete child
    child eval {tktext::text .t}
    puts [catch {child eval $body}]
    catch {interp delete child}
}
tried {tktext::text .x::}
tried {tktext::text .n::m; .n::m insert 1.0 in; .n::m get 1.0 1.end}
namespace delete .n
tried {tktext::text .n::m; .n::m get 1.0 1.end}
tried {tktext::text .0\0; .0\0 insert 1.0 a\0\u00e9\ud83d\ude00; .0\0 get 1.0 end-1c}
tried {tktext::destroy .0\0; info commands .0*}
tried {tktext::text .t; .t insert 1.0 \ud83d}
"""
ENDED_PRINTS = """0
0
1
0
0
.x::
in

a\0é\U0001f600

error: a word isn't UTF-8 (TKTEXT WORDS)
"""

# An error says what the library's own fault leaves unsaid, and its code keeps that alone.
FAULTS = r"""
tktext::text .t
tried {.t}
tried {.t index}
tried {.t tag}
tried {tktext::text}
tried {.t mark foo}
tried {.t dump -foo 1.0}
tried {.t configure -foo 1}
tried {.t configure -state -undo}
tried {.t compare 1.0 = 1.0}
tried {.t mark gravity insert up}
tried {.t index nowhere}
tried {.t index}
rename .t ::moved
tried {moved tag raise}
tried {moved peer create .u -foo 1}
tried {moved peer create}
tried {try {moved get} trap {TKTEXT FAULT} {message options} {lindex [dict get $options -errorcode] 2}}
# A long fault, or a command of a long name, says no more.
set long [string repeat x 2000]
tried {string length [catch {moved configure $long 1} said]$said}
rename moved $long
tried {$long index}
"""
FAULTS_PRINTS = """error: wrong # args: should be ".t option ?arg ...?" (TKTEXT FAULT {wrong # args})
error: wrong # args: should be ".t index index" (TKTEXT FAULT {wrong # args})
error: wrong # args: should be ".t tag option ?arg ...?" (TKTEXT FAULT {wrong # args})
error: wrong # args: should be "tktext::text pathName ?option value ...?" (TKTEXT FAULT {wrong # args})
error: bad option "foo": must be gravity, names, next, previous, set, or unset (TKTEXT FAULT {bad option "foo"})
error: bad option "-foo": must be -all, -mark, -tag, or -text (TKTEXT FAULT {bad option "-foo"})
error: bad option "-foo": must be -autoseparators, -endline, -maxundo, -startline, -state, or -undo (TKTEXT FAULT {bad option "-foo"})
error: bad option "-undo": must be disabled or normal (TKTEXT FAULT {bad option "-undo"})
error: bad comparison operator "=": must be <, <=, ==, >=, >, or != (TKTEXT FAULT {bad comparison operator "="})
error: bad mark gravity "up": must be left or right (TKTEXT FAULT {bad mark gravity "up"})
error: bad text index "nowhere" (TKTEXT FAULT {bad text index "nowhere"})
error: wrong # args: should be ".t index index" (TKTEXT FAULT {wrong # args})
error: wrong # args: should be "moved tag raise tagName ?tagName?" (TKTEXT FAULT {wrong # args})
error: bad option "-foo": must be -autoseparators, -endline, -maxundo, -startline, -state, or -undo (TKTEXT FAULT {bad option "-foo"})
error: wrong # args: should be "moved peer create pathName ?option value ...?" (TKTEXT FAULT {wrong # args})
wrong # args
2014
error: wrong # args (TKTEXT FAULT {wrong # args})
"""

# Lengths around the greatest, 10,000 bytes here: words, and a shared word again and again; answers and errors.  What
# was refused for its words wasn't carried out; what was refused for its answer was.
LONG = r"""
tktext::text .t
proc refill {text} { .t delete 1.0 end; .t insert 1.0 $text }
set half [string repeat a 5000]
tried {.t insert 1.0 [string repeat a 9990]}
puts [.t index 1.end]
tried {.t insert 1.0 [string repeat a 9989]}
puts [.t index 1.end]
foreach count {2 24} {
    tried {.t insert 1.0 {*}[lrepeat $count $half {}]}
    puts [.t index 1.end]
}
# The lengths of the words themselves take 8 bytes each.
tried {.t get {*}[lrepeat 1240 1.0]}
tried {.t get {*}[lrepeat 1250 1.0]}
tried {.t get {*}[lrepeat 20000 1.0]}
refill $half
.t insert 1.0 $half
tried {string length [.t get 1.0 1.9999]}
tried {.t get 1.0 1.10000}
tried {.t get 1.0 1.end 1.0 1.end}
tried {.t replace 1.0 1.1 b}
tried {.t get 1.0 1.2}
tried {.t index [string repeat x 9990]}
# A character of four bytes takes six in Tcl, and the character 0 two.
refill [string repeat \ud83d\ude00 800]
.t insert 1.0 [string repeat \ud83d\ude00 800]
tried {string length [.t get 1.0 1.1600]}
.t insert 1.0 [string repeat \ud83d\ude00 100]
tried {.t get 1.0 1.1700}
refill [string repeat \0 2400]
.t insert 1.0 [string repeat \0 2400]
tried {string length [.t get 1.0 1.4800]}
.t insert 1.0 [string repeat \0 300]
tried {.t get 1.0 1.5100}
# A report of more bytes than Tcl can hold: its followers aren't called, and the offsets after it are right.
interp bgerror {} {apply {{said options} {puts "background: $said ([dict get $options -errorcode])"}}}
tktext::text .u -undo 1
.u insert 1.0 $half
foreach count {1 2} { .u insert 1.0 [string repeat \ud83d\ude00 800] }
.u edit separator
.u delete 1.0 end
tktext::onchange .u {apply {changes {foreach change $changes {puts [lrange $change 0 2]}}}}
tried {.u edit undo}
update
.u insert end -
# Texts of both directions, around the buffer of the extension.
foreach length {980 990 996 997 998 999 1000 1001 1002 1003 1010 1020 1022 1023 1024 1025 1500} {
    foreach char {a \0 \u00e9 \ud83d\ude00} {
        set text [string repeat $char [expr {$length / (2 * [string length $char])}]]
        append text [string repeat z [expr {$length % 7}]]
        refill $text
        if {[.t get 1.0 end-1c] ne $text} { puts "$length differs" }
    }
}
"""
LONG_PRINTS = """WORDS
1.0

1.9989
WORDS
1.9989
WORDS
1.9989

WORDS
WORDS
9999
DONE
DONE

ba
REFUSED
3200
DONE
4800
DONE

background: a text of a report has more bytes than Tcl can hold (TKTEXT SIZE)
8200 0 -
""".replace("WORDS", "error: the words of the command have more bytes than Tcl can hold (TKTEXT SIZE)").replace(
    "DONE", "error: the command was carried out, but its answer has more bytes than Tcl can hold (TKTEXT SIZE)"
).replace("REFUSED", "error: the command was refused, and its error has more bytes than Tcl can hold (TKTEXT SIZE)")

# More than 2 GiB by a word of 100 MB, which is one value: nothing is written, so it takes the memory of that alone.
SHARED_WORD = r"""
tktext::text .t
set text [string repeat a 100000000]
tried {.t insert 1.0 {*}[lrepeat 24 $text {}]}
tried {.t index 1.end}
"""
SHARED_WORD_PRINTS = """error: the words of the command have more bytes than Tcl can hold (TKTEXT SIZE)
1.0
"""


def random_script(seeds):
    """Random commands of a number of seeds."""
    return f"set seeds {seeds}\nset commands {RANDOM_COMMANDS}\n{RANDOM}"


def cases(extension, small, refused):
    """The name of each case, what runs it, its extension, its script, and what this prints."""
    watched = VALGRIND if shutil.which("valgrind") else []
    yield "a wrapped widget", [*watched, TCLSH], extension, WRAPPED, WRAPPED_PRINTS
    yield "a text that is followed", [*watched, TCLSH], extension, FOLLOWED, FOLLOWED_PRINTS
    yield "a follower that edits", [*watched, TCLSH], extension, TRIMMED, TRIMMED_PRINTS
    yield "the order of reports", [*watched, TCLSH], extension, QUEUED, QUEUED_PRINTS
    yield "followers that destroy", [*watched, TCLSH], extension, DESTRUCTIVE, DESTRUCTIVE_PRINTS
    yield "wide characters", [*watched, TCLSH], extension, WIDE, WIDE_PRINTS
    yield "random commands", [TCLSH], extension, random_script(RANDOM_SEEDS), RANDOM_PRINTS
    yield "some random commands", [*watched, TCLSH], extension, random_script(RANDOM_WATCHED_SEEDS), RANDOM_PRINTS
    yield "hidden commands", [*watched, TCLSH], extension, HIDDEN, HIDDEN_PRINTS
    yield "traces", [*watched, TCLSH], extension, TRACED, TRACED_PRINTS
    yield "interpreters that end", [*watched, TCLSH], extension, ENDED, ENDED_PRINTS
    yield "faults that say more", [*watched, TCLSH], extension, FAULTS, FAULTS_PRINTS
    yield "a shared word", [TCLSH], extension, SHARED_WORD, SHARED_WORD_PRINTS
    if small is not None:
        yield "lengths", [*watched, TCLSH], small, LONG, LONG_PRINTS
    if refused is not None:
        yield "growths refused beside followers", [*watched, TCLSH], refused, REFUSED, REFUSED_PRINTS


def check_case(name, runner, extension, script, wanted, folder, tally):
    """One case: what it prints and its end, or its script is shown."""
    file = os.path.join(folder, "case.tcl")
    with open(file, "w", encoding="utf-8") as written:
        written.write(HEAD + script)
    try:
        words = [*runner, file, os.path.abspath(extension)]
        done = subprocess.run(words, capture_output=True, timeout=LONG_TIMEOUT_SECONDS)
    except subprocess.TimeoutExpired:
        tally.failed(f"Tcl, {name}: no end; the script:\n{HEAD}{script}")
        return
    said, errors = done.stdout.decode("utf-8", "replace"), done.stderr[-2000:].decode("utf-8", "replace")
    if (said, done.returncode, errors) == (wanted, 0, ""):
        tally.passed()
        return
    tally.failed(f"Tcl, {name}: status {done.returncode}\n{said}{errors}wanted\n{wanted}the script:\n{HEAD}{script}")


def check(extension, small, refused, tally):
    """Each case."""
    with tempfile.TemporaryDirectory() as folder:
        for name, runner, of_case, script, wanted in cases(extension, small, refused):
            check_case(name, runner, of_case, script, wanted, folder, tally)


def main():
    parser = argparse.ArgumentParser(description="commands and lengths of the Tcl extension")
    parser.add_argument("--extension", required=True)
    parser.add_argument("--small")
    parser.add_argument("--refused")
    options = parser.parse_args()
    tally = Tally()
    check(options.extension, options.small, options.refused, tally)
    return tally.close()


if __name__ == "__main__":
    sys.exit(main())
