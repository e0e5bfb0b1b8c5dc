# quotes, braces, escapes, and a line that goes on
text .t
.t insert 1.0 "hello, world"
.t insert end {
{braces} keep $this}
.t get 1.0 end
.t insert 1.5 \ big
.t insert 1.end \
    "\u2014 a caf\xe9"
.t get 1.0 1.end
.t index 1.99
.t index end
.t get "end - 1 lines" "2.0 lineend"
.t index "2.1 wordend + 1 any chars"
.t compare insert >= "end - 2 lines"
.t tag add bold 1.0 1.5 "end - 1 lines" 2.8
.t insert 2.0 "so: " {bold em}
.t tag ranges bold
.t get bold.first "bold.first wordend" em.first em.last
# a second widget that shows the text from its second line on
.t configure -undo 1
.t peer create .p -startline 2
.p replace 1.0 1.4 and:
.p tag add sel 1.1 1.7
.p dump 1.0 end
.t search -all brace 1.0
.t edit undo
.p get 1.0 end-1c
