# Says what a refusal most likely means. The fault of an input is shown by its line with a caret under its column.
# With sentences.awk; its variables, and: status; refusal, the program's line; document, what the command reads;
# first_bytes, those of the input in hexadecimal. The input is read only for status 3.

# the column of a word, counted from 1
function column_of(text, number,    at) {
  for (at = 1; number > 0; number--) {
    while (substr(text, at, 1) ~ /[ \t]/) at++
    if (number > 1) while (substr(text, at, 1) ~ /[^ \t]/) at++
  }
  return at
}

# the state of the line after a table
function after_table() {
  tables++
  if (document == "tables" || document == "two-tables" && tables == 1) return "table"
  if (document == "vectors" || document == "vector" || document == "blocks") return "vector"
  return document == "steps" || document == "moves" ? document : "end"
}

# the state of the line after this one
function next_state(state, text,    parted) {
  sub(/\r$/, "", text)
  split(text, parted)
  if (state == "table" && parted[1] == "tri" && parted[2] > 0) { left = parted[2]; return "row" }
  if (state == "table") return after_table()
  if (state == "row") return --left > 0 ? "row" : after_table()
  if (state == "vector") return document == "vector" ? "end" : document == "blocks" ? "times" : "vector"
  if (state == "times") left = parted[3]
  if (state == "term") left--
  if (state == "times" || state == "term") return left > 0 ? "term" : "vector"
  if (state == "cone") left = parted[2] > 0 ? parted[3] : 0
  if (state == "cone-row") left--
  if (state == "cone" || state == "cone-row") return left > 0 ? "cone-row" : "end"
  return state
}

function say(text) {
  if (text != "") print "trinorm: " text
}

# a line and a caret, as far as a terminal has room
function show(number, text, column, said,    from, shown, head) {
  if (said == "") return
  from = column > 60 ? column - 50 : 1
  shown = substr(text, from, 70)
  gsub(/[^ -~]/, " ", shown)
  head = "trinorm: line " number ": " (from > 1 ? ".." : "")
  print head shown (length(text) >= from + 70 ? ".." : "")
  print spaces(length(head) + column - from) "^ " said
}

function spaces(count,    text) {
  while (count-- > 0) text = text " "
  return text
}

# of an input with one signature or more, the word at fault if it is sure
function show_signature(number, text,    start, at, known) {
  start = column_of(text, 2)
  fault_word = substr(text, start)
  sub(/[ \t\r].*/, "", fault_word)
  known = fault_word ~ /_/ ? start + index(fault_word, "_") - 1 : fault_word ~ /^["']/ ? start : 0
  at = known ? known : kind == "signature short" ? start + length(fault_word) : start + field_of[0]
  show(number, text, fault_word ~ /^[a-zA-Z]+[0-9]+[an0-9]*$/ && !known && kind != "signature short" ? start : at, sentence(3, kind))
}

BEGIN {
  read_hints()
  kind = kind_of(refusal)
  about = kind
  sub(/ .*/, "", about)
  is_sure = document != "tables" && document != "two-tables"
  state = document == "cone" ? "cone" : "table"
  if (status != 3 || kind == "input too-long") {
    say(sentence(status, kind))
    is_said = 1
    exit
  }
  if (about == "input") { line = field_of[0]; column = field_of[1] }
}

{ is_comment = $0 ~ /^[ \t]*(#|\r?$)/ }

about == "input" && NR == line {
  text = $0
  is_there = 1
  exit
}

about == "signature" && $1 == "sig" && (is_sure || $2 ~ /_/) { show_signature(NR, $0); is_said = 1; exit }

about == "table" && is_sure && state == "row" && !is_comment && rows_read++ == field_of[0] {
  show(NR, $0, column_of($0, field_of[1] + 1), sentence(3, kind))
  is_said = 1
  exit
}

!is_comment { seen++; state = next_state(state, $0) }

END {
  if (is_said) exit
  if (about != "input") { say(sentence(3, kind)); exit }
  split(substr(text, 1, column - 1), before)
  fault_number = split(substr(text, 1, column - 1), parted) + 1
  fault_state = state == "table" && fault_number > 1 && (before[1] == "sig" || before[1] == "tri") ? before[1] : state
  fault_word = substr(text, column)
  sub(/[ \t\r].*/, "", fault_word)
  sub(/\r$/, "", text)
  is_empty = kind == "input missing-word" && seen == 0 && fault_number == 1
  said = sentence(3, kind)
  if (fitting && row_condition[fitting] ~ /^begins/) say(said)
  else if (is_there) show(line, text, column, said)
  else say(seen ? "the input is incomplete: " said : said)
}
