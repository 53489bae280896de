# The second half of the launcher, where standard error is a terminal: runs the program, and says in a few words what is
# wanted where it is asked for help or refuses. Standard output and status stay the program's own.
#
# It is read by the launcher, which has set
#   program   the program
#   here      the folder of this file
#   commands  the table of commands; hints.txt and words.json are in its folder
#   version_file  the file with version, commit and sum of the program
#   examples  the folder of the examples
#   pages     where to read more

tab=$(printf '\t')

say() { printf 'trinorm: %s\n' "$1" >&2; }

# A word as a shell reads it.
quoted() {
  case $1 in
    *[!A-Za-z0-9_./=+:@%,-]*) printf "'%s'" "$(printf %s "$1" | sed "s/'/'\\\\''/g")" ;;
    *) printf %s "$1" ;;
  esac
}

# How the launcher was called: by its path, or found by its name.
me=$(quoted "$0")
[ "$(command -v trinorm)" != "$0" ] || me=trinorm

# Sets document, options, example and answers to what the table says of a command.
look_up() {
  while IFS=$tab read -r name document options example answers; do
    [ "$name" != "${1-}" ] || return 0
  done <"$commands"
  return 1
}

# Whether these are right words of a command that reads an input.
reads_input() {
  look_up "${1-}" && [ "$document" != none ] || return 1
  "$program" "$@" </dev/null >/dev/null
  [ $? -ne 2 ]
}

# What a document is, in words.
in_words() {
  case $1 in
    table) echo 'a triangulation' ;;
    two-tables) echo 'two triangulations' ;;
    tables) echo 'any number of triangulations' ;;
    vectors) echo 'a triangulation, then any number of lines `vec ..`' ;;
    vector) echo 'a triangulation, then one line `vec ..`' ;;
    blocks) echo 'a triangulation, then the sums that `decompose` prints' ;;
    steps) echo 'a triangulation, then lines with moves, `undo` or `redo`' ;;
    moves) echo 'a triangulation, then lines with moves' ;;
    cone) echo 'a cone (`cone COLUMNS ROWS`, then its rows)' ;;
  esac
}

# The options of a command, as its words may be.
say_options() {
  written='' both=
  for option in $options; do
    case $option in
      -) written=none ;;
      *!*) written="$written${written:+ and }--${option%%!*} ${option#*!}" both=', both required' ;;
      *) written="$written${written:+, }--${option%%=*} ${option#*=}" ;;
    esac
  done
  say "options of $1: $written$both"
}

say_example() {
  case $1 in
    *'< examples/'*) say "for example: $me $2 < $(quoted "$examples/${1#*< examples/}")" ;;
    *) say "for example: $me ${1#./trinorm }" ;;
  esac
}

# All commands with a word on each, where the input comes from, and one example.
say_commands() {
  say "commands ($pages):"
  awk -F '\t' '!/^#/ { printf "trinorm:   %-10s %s\n", $1, $5 }' "$commands" >&2
  without=$(awk -F '\t' '!/^#/ && $2 == "none" { printf "%s%s", before, $1; before = " and " }' "$commands")
  say "each command except $without reads standard input; \`$me COMMAND --help\` describes it"
  say "\`$me help TERM\` explains a term of the output, and \`$me help terms\` lists all of them"
  look_up surfaces && say_example "$example" surfaces
}

# What is wrong with words.
say_usage() { awk -v hints="${commands%/*}/hints.txt" -v commands="$commands" -f "$here/sentences.awk" -f "$here/usage.awk" -- "$@" >&2; }

say_help() {
  look_up "$1"
  say "$1 prints $answers"
  say_options "$1"
  case $document in
    none) ;;
    cone) say "it reads $(in_words cone) from standard input" ;;
    *) say "it reads $(in_words "$document") from standard input; a triangulation is \`sig SIGNATURE\`, or a gluing table (\`tri N\` and N rows)" ;;
  esac
  say_example "$example" "$1"
}

# What `help` says of a term: the help of a command, or the sentences of the table of words; of `terms`, which these are.
say_term() {
  [ "$1" != terms ] || set --
  if [ $# -le 1 ] && look_up "${1-}"; then
    say_help "$1"
  elif ! asked=$* awk -f "$here/words.awk" "${commands%/*}/words.json" >&2; then
    say "there is no explanation of \`$*\`; \`$me help terms\` lists the terms that have one"
  fi
}

say_version() {
  version='' commit='' kit='' sum='' proved=''
  while read -r key value; do
    case $key in
      version) version=$value ;;
      commit) commit=$value ;;
      kit) kit=$value ;;
      program) sum=$value ;;
      proved) proved=$value ;;
    esac
  done <"$version_file"
  say "version $version, commit $commit, program sha256 $sum, proved $proved by $kit"
}

# Whether a word is a signature; those of SnapPy may have a decoration from a `_` on.
is_signature() {
  case ${1%%_*} in '' | *[!A-Za-z0-9+-]*) return 1 ;; esac
  printf 'sig %s\n' "${1%%_*}" | "$program" csig >/dev/null
}


# Where a file's name, a signature or `-` stands among the words of a command: how it is given. The other words stay.
say_input() {
  words=$1 file='' signature='' is_value=
  shift
  for word; do
    case $word in
      --*=*) is_value='' words="$words $(quoted "$word")"; continue ;;
      --*) is_value=yes words="$words $(quoted "$word")"; continue ;;
    esac
    if [ -n "$is_value" ]; then
      is_value='' words="$words $(quoted "$word")"
    elif [ "$word" = - ]; then
      file=FILE
    elif [ -e "$word" ]; then
      file=$(quoted "$word")
    elif [ "$word" != sig ] && is_signature "$word"; then
      signature=${word%%_*}
    fi
  done
  head="${words%% *} reads $(in_words "$document") from standard input"
  if [ -n "$file" ]; then
    say "$head: $me $words < $file"
  elif [ -n "$signature" ]; then
    say "$head: echo sig $signature | $me $words"
  else
    return 1
  fi
}

# What is wrong with these words, and what may be in their place.
say_words() {
  case ${1-} in
    --version | -V | -v | version) say_version; return ;;
    '' | -*) say_commands; return ;;
  esac
  if [ "$1" = help ]; then
    shift
    if [ $# = 0 ]; then say_commands; else say_term "$@"; fi
    return
  fi
  look_up "$1" || { say_usage "$@"; say "\`$me --help\` lists the commands"; return; }
  for word; do
    case $word in --help | -h | help | '-?') say_help "$1"; return ;; esac
  done
  if [ "$document" = none ] || ! say_input "$@"; then
    look_up "$1"
    say_usage "$@"
    say_options "$1"
  fi
}

# Sets coords and width to the coordinates that the words name, else to the first that the command has.
look_at_coordinates() {
  coords=standard
  case " $options " in *' coords='*) coords=${options#*coords=} coords=${coords%%[| ]*} ;; esac
  is_value=
  for word; do
    case $is_value$word in
      yesstandard | yesquad | yesoctagon) coords=$word ;;
      --coords=standard | --coords=quad | --coords=octagon) coords=${word#*=} ;;
    esac
    is_value=
    [ "$word" != --coords ] || is_value=yes
  done
  case $coords in quad) width=3 ;; octagon) width=10 ;; *) width=7 ;; esac
}

# The line of a refusal, from a second run on the same input; nothing if that takes over two seconds.
refusal_of() {
  if [ "$status" = 3 ]; then
    "$program" "$@" <"$input"
  elif command -v timeout >/dev/null; then
    timeout 2 "$program" "$@" <"$input"
  fi | head -n 1
}

# What a refusal is about.
say_fault() {
  [ -n "$input" ] && look_up "$1" || return
  refusal=$(refusal_of "$@")
  [ -n "$refusal" ] || return
  look_at_coordinates "$@"
  first=$(head -c 8 <"$input" | od -An -tx1 | tr -d ' \n')
  LC_ALL=C awk -v hints="${commands%/*}/hints.txt" -v status="$status" -v refusal="$refusal" -v command="$1" -v coords="$coords" -v width="$width" \
    -v document="$document" -v first_bytes="$first" -f "$here/sentences.awk" -f "$here/fault.awk" <"$input" >&2
}

# The sentence on a status alone.
say_status() { awk -v hints="${commands%/*}/hints.txt" -v status="$1" -f "$here/sentences.awk" -f "$here/fault.awk" </dev/null >&2; }

# Whether standard input is a file of which nothing was read yet.
is_whole_file() {
  [ -f /dev/stdin ] && [ "$(sed -n 's/^pos:[[:blank:]]*//p' /proc/self/fdinfo/0 2>/dev/null)" = 0 ]
}

# Runs the program, and sets input to where what it read can be read again, if anywhere: a file by its name, and what comes
# through a pipe or from a terminal in a file without a name.
run() {
  input=''
  if is_whole_file; then
    input=/dev/stdin
    "$program" "$@"
  elif { [ -p /dev/stdin ] || [ -t 0 ]; } && reads_input "$@" && file=$(mktemp 2>/dev/null); then
    exec 3<>"$file"
    rm -f "$file"
    input=/dev/fd/3
    [ ! -t 0 ] || say "$1 reads $(in_words "$document") from the terminal; end it with Ctrl-D on a line of its own"
    # no more than the program reads: at a closed pipe `tee` would end, before the file has what the program has read of a block
    head -c 1048577 | tee "$input" | "$program" "$@" 3<&-
  else
    "$program" "$@"
  fi
}

# Says, if the program runs for ten seconds, that it does and how to stop it. The process that waits holds none of the
# launcher's files, so that nobody waits for it. From a terminal the program may be waiting for its input.
say_later() {
  (
    trap 'kill $!; exit' TERM
    sleep 10 &
    wait $!
    say "$1 has been running for ten seconds; Ctrl-C stops it" 2>"/proc/$$/fd/2"
  ) </dev/null >/dev/null 2>&1 3<&- &
  later=$!
}

later=
[ -t 0 ] || [ $# = 0 ] || say_later "$1"
run "$@"
status=$?
[ -z "$later" ] || { kill "$later"; wait "$later"; } 2>/dev/null
case $status in
  2) say_words "$@" ;;
  3 | 4 | 5) say_fault "$@" ;;
  7 | 8) say_status "$status" ;;
esac
exit $status
