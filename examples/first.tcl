# A first look: a text, a search, a tag that goes with its word, and undo.
text .t -undo 1
.t insert 1.0 "hello, wide world"
.t index end
.t search wide 1.0
.t tag add bold 1.7 1.11
.t delete 1.0 1.7
.t get 1.0 1.end
.t tag ranges bold
.t edit undo
.t get bold.first bold.last
