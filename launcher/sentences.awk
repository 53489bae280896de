# Sentences of hints.txt, whose head says what its fields are.
# Variables: hints, the path of that file; command, coords, width.

function read_hints(    line, field) {
  while ((getline line < hints) > 0) {
    if (line ~ /^#/) continue
    split(line, field, "\t")
    rows++
    row_status[rows] = field[1]
    row_commands[rows] = field[2]
    row_kind[rows] = field[3]
    row_condition[rows] = field[4]
    row_sentence[rows] = field[5]
  }
  close(hints)
}

# the sentence of the first row that fits, with its fields put in, and its number in `fitting`; empty if there is none
function sentence(status, kind,    at) {
  for (at = 1; at <= rows; at++)
    if ((row_status[at] == "*" || row_status[at] == status) && names(row_commands[at], command) && begins(kind, row_kind[at]) && holds(row_condition[at]))
      { fitting = at; return filled(row_sentence[at]) }
  fitting = 0
  return ""
}

# whether a list of names separated by commas has this one
function names(list, name) {
  return list == "*" || index("," list ",", "," name ",") > 0
}

# whether the first words of a kind are these
function begins(kind, words) {
  return words == "*" || index(kind " ", words " ") == 1
}

function holds(condition,    parts, count, at) {
  if (condition == "-") return 1
  count = split(condition, parts, " & ")
  for (at = 1; at <= count; at++) if (!holds_part(parts[at])) return 0
  return 1
}

# `fault_state` and `fault_number`, `fault_word`, `first_bytes` and `is_empty` are what is known of the fault
function holds_part(part,    word, rest, number) {
  word = part
  sub(/ .*/, "", word)
  rest = substr(part, length(word) + 2)
  if (word == "begins") return begins_with_bytes(rest)
  if (word == "empty") return is_empty
  if (word == "word") return fault_word ~ rest
  if (word != "at") return 0
  number = rest
  return sub(/^[^ ]* /, "", number) ? rest == fault_state " " fault_number : rest == fault_state
}

function begins_with_bytes(starts,    start, count, at) {
  count = split(starts, start, "|")
  for (at = 1; at <= count; at++) if (index(first_bytes, start[at]) == 1) return 1
  return 0
}

# a sentence in which each `{name}` is replaced by its field
function filled(text,    done, name, at) {
  while ((at = match(text, /[{][a-z0-9_]+[}]/)) > 0) {
    name = substr(text, RSTART + 1, RLENGTH - 2)
    done = done substr(text, 1, at - 1) value_of(name)
    text = substr(text, at + RLENGTH)
  }
  return done text
}

function value_of(name,    at) {
  at = index(fault_word, "_")
  if (name == "command") return command
  if (name == "coords") return coords
  if (name == "width") return width
  if (name == "word") return fault_word
  if (name == "undecorated") return at ? substr(fault_word, 1, at - 1) : fault_word
  if (name == "decoration") return at ? substr(fault_word, at) : ""
  return field_of[name]
}

# the words of a refusal without its numbers; these go to field_of
function kind_of(refusal,    word, count, at, kind, numbers) {
  count = split(refusal, word, " ")
  if (word[2] == "large" && word[3] == "step") return "large " (refusal ~ / value / ? "value" : "pair")
  if (word[2] == "check" && word[3] == "not-standard") { field_of[0] = word[4]; return "check not-standard" }
  for (at = 2; at <= count; at++)
    if (word[at] ~ /^[0-9]+$/) field_of[numbers++ + 0] = word[at]
    else kind = kind (kind == "" ? "" : " ") word[at]
  return kind
}
