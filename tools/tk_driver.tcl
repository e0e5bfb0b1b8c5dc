# Runs commands in real Tk 8.6 and tells each answer: what tools/tk.py talks to, by `wish tk_driver.tcl`.
#
# Reads lines from standard input: `new` takes all widgets away, and any other line is a command in UTF-8, spelled in
# hexadecimal digits, which is run.  Writes a line for each command: `ok` or `error`, a blank, and the answer, spelled
# so too.  No window is shown, and no event is ever looked at.  Texts keep their selections for themselves: else a
# widget loses its own to the display when another one selects something.

wm withdraw .
option add *Text.exportSelection 0
fconfigure stdout -buffering line

while {[gets stdin line] >= 0} {
    if {$line eq "new"} {
        destroy {*}[winfo children .]
        continue
    }
    set command [encoding convertfrom utf-8 [binary decode hex $line]]
    set is_refused [catch {uplevel #0 $command} answer]
    puts "[expr {$is_refused ? "error" : "ok"}] [binary encode hex [encoding convertto utf-8 $answer]]"
}
exit 0
