# Prints the sentences of a word, `asked` in the environment: of this word if the table explains it, and otherwise of each word that
# contains it. If `asked` is empty, prints the words alone. Status 1: no word was found.
# The table is words.json, in which each word has a line of its own, `    "WORD": "SENTENCES",`.

BEGIN { asked = tolower(ENVIRON["asked"]) }

/^    "/ {
  at = index($0, "\": \"")
  word = substr($0, 6, at - 6)
  sentences = substr($0, at + 4)
  sub(/",?$/, "", sentences)
  list = list (list == "" ? "" : ", ") word
  if (asked == tolower(word)) exact = "trinorm: " word ": " sentences "\n"
  else if (asked != "" && index(tolower(word), asked)) others = others "trinorm: " word ": " sentences "\n"
}

END {
  if (asked == "") print "trinorm: terms that are explained: " list
  else printf "%s", exact == "" ? others : exact
  exit asked != "" && exact others == ""
}
