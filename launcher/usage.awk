# Says what is wrong with the words of a command line, which are the arguments. Status 1: nothing is seen.
# With sentences.awk; its variable hints, and: commands, the path of the table of commands.

function read_commands(    line, field) {
  while ((getline line < commands) > 0) {
    if (line ~ /^#/) continue
    split(line, field, "\t")
    options_of[field[1]] = field[3]
    all_commands = all_commands " " field[1]
  }
  close(commands)
}

# sets values_of and is_needed for each option of a command, and `all_options`
function read_options(command,    parts, count, at, name) {
  count = split(options_of[command], parts, " ")
  for (at = 1; at <= count; at++) {
    if (parts[at] == "-") continue
    name = parts[at]
    sub(/[=!].*/, "", name)
    values_of[name] = substr(parts[at], length(name) + 2)
    is_needed[name] = substr(parts[at], length(name) + 1, 1) == "!"
    all_options = all_options " --" name
  }
}

# what values are, in words
function in_words(values,    ends) {
  if (values ~ /[.][.]/) { split(values, ends, "[.][.]"); return "a whole number from " ends[1] " to " ends[2] }
  gsub(/[|]/, ", ", values)
  return "one of " values
}

function is_value(word, values,    ends) {
  if (values !~ /[.][.]/) return word != "" && word !~ /[|]/ && index("|" values "|", "|" word "|") > 0
  split(values, ends, "[.][.]")
  return word ~ /^[0-9]+$/ && length(word) <= 45 && !is_less(word, ends[1]) && !is_less(ends[2], word)
}

# whether a decimal is less than another, however long both are
function is_less(one, other) {
  sub(/^0+/, "", one)
  sub(/^0+/, "", other)
  return length(one) != length(other) ? length(one) < length(other) : ("x" one) < ("x" other)
}

# the one of these words from which the fewest letters differ, if they are few
function nearest(word, list,    known, count, at, most, near, distance) {
  count = split(list, known, " ")
  most = length(word) < 3 ? 0 : length(word) < 6 ? 1 : 2
  for (at = 1; at <= count; at++) {
    distance = distance_of(word, known[at])
    if (distance <= most) { most = distance - 1; near = known[at] }
  }
  return near == "" ? "" : "; did you mean `" near "`?"
}

# how many letters are put in, left out, changed or exchanged with their neighbour on the way from one word to another
function distance_of(one, other,    at, to, cost, d) {
  for (at = 0; at <= length(one); at++) d[at, 0] = at
  for (to = 0; to <= length(other); to++) d[0, to] = to
  for (at = 1; at <= length(one); at++) for (to = 1; to <= length(other); to++) {
    cost = substr(one, at, 1) != substr(other, to, 1)
    d[at, to] = least(least(d[at - 1, to] + 1, d[at, to - 1] + 1), d[at - 1, to - 1] + cost)
    if (at > 1 && to > 1 && substr(one, at, 1) == substr(other, to - 1, 1) && substr(one, at - 1, 1) == substr(other, to, 1))
      d[at, to] = least(d[at, to], d[at - 2, to - 2] + 1)
  }
  return d[length(one), length(other)]
}

function least(one, other) { return one < other ? one : other }

function say(kind) {
  print "trinorm: " sentence(2, "usage " kind)
  is_said = 1
  exit
}

# an option with its value: says what is wrong with it
function look_at(name, value, has_value) {
  fault_word = "--" name
  field_of["nearest"] = nearest(fault_word, all_options)
  if (!(name in values_of)) say("unknown-option")
  field_of["option"] = fault_word
  field_of["values"] = in_words(values_of[name])
  if (!has_value) say("no-value")
  fault_word = value
  list = values_of[name]
  gsub(/[|]/, " ", list)
  field_of["nearest"] = list ~ /[.][.]/ ? "" : nearest(value, list)
  if (!is_value(value, values_of[name])) say("bad-value")
  if (name in seen) say("twice")
  seen[name] = 1
}

BEGIN {
  read_hints()
  read_commands()
  if (ARGC < 2) say("no-command")
  command = fault_word = ARGV[1]
  field_of["nearest"] = nearest(command, all_commands)
  if (!(command in options_of)) say("unknown-command")
  read_options(command)
  for (at = 2; at < ARGC; at++) {
    word = ARGV[at]
    if (word !~ /^--/) { fault_word = word; say("extra-word") }
    equals = index(word, "=")
    if (equals) look_at(substr(word, 3, equals - 3), substr(word, equals + 1), 1)
    else { look_at(substr(word, 3), at + 1 < ARGC ? ARGV[at + 1] : "", at + 1 < ARGC); at++ }
  }
  for (name in is_needed) if (is_needed[name] && !(name in seen)) missing = missing " " name
  if (missing == "") exit
  # of several the first one in the table
  split(all_options, known, " ")
  for (at = 1; at in known; at++) {
    name = substr(known[at], 3)
    if (is_needed[name] && !(name in seen)) {
      field_of["option"] = "--" name
      field_of["values"] = in_words(values_of[name])
      say("missing-option")
    }
  }
}

END { exit !is_said }
