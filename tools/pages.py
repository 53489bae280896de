"""The manual page, and the completions of words for bash and zsh, from the table of commands."""
from __future__ import annotations

from typing import Dict, List, Sequence

from commands import Command, Option

STATUSES = (
    ("0", "done"), ("2", "invalid command line"), ("3", "invalid input"),
    ("4", "the input is valid, but the command cannot answer it"), ("5", "a number exceeds the limit"),
    ("6, 7", "reading the input, or writing the output, failed"),
    ("8", "out of memory"), ("9", "the program could not be built, or the command line could not be read"),
)
DOCUMENTS = {
    "table": "a triangulation", "two-tables": "two triangulations", "tables": "any number of triangulations",
    "vectors": "a triangulation, then any number of vectors", "vector": "a triangulation, then one vector",
    "blocks": "a triangulation, then any number of sums, as decompose prints them",
    "steps": "a triangulation, then any number of moves, undo and redo", "moves": "a triangulation, then any number of moves",
    "cone": "a cone", "none": "nothing",
}
PURPOSE = "vertex normal surfaces of triangulated 3-manifolds, with a proof that none is missing"


def roff(text: str) -> str:
    """A text as the manual's language has it."""
    return text.replace("\\", "\\e").replace("-", "\\-")


def values(option: Option) -> str:
    return "|".join(option.values) or f"{option.numbers[0]}..{option.numbers[1]}"


def synopsis(command: Command) -> str:
    words = [rf"\fB{roff(command.name)}\fR"]
    for option in command.options:
        value = "|".join(option.values) or r"\fINUMBER\fR"
        named = rf"\fB\-\-{roff(option.name)}\fR {value}"
        words.append(named if option.wanted else f"[{named}]")
    return " ".join(words)


def entry(command: Command) -> List[str]:
    lines = [".TP", synopsis(command), roff(f"Prints {command.answers}. Reads {DOCUMENTS[command.document]}.")]
    numbers = [roff(f"--{option.name} is a number from {option.numbers[0]} to {option.numbers[1]}.")
               for option in command.options if not option.values]
    return lines + numbers


def manual(commands: Sequence[Command], version: str, day: str) -> str:
    """The manual page of a version that was made on a day, as 2026-01-31."""
    lines = [
        f'.TH TRINORM 1 {day} "trinorm {version}" "User Commands"', ".SH NAME", rf"trinorm \- {roff(PURPOSE)}", ".SH SYNOPSIS",
        r"\fBtrinorm\fR \fICOMMAND\fR [\fB\-\-\fIoption value\fR ...] < \fIINPUT\fR", ".SH DESCRIPTION",
        "Reads standard input to its end, and prints the result to standard output. An error is printed as one line on standard output,",
        r"which begins with \fBrefused:\fR. If standard error is a terminal, the error is explained there; \fBtrinorm help\fR \fITERM\fR",
        "explains a term of the output.",
        ".PP", "A triangulation is a signature (a line \\fBsig\\fR \\fISIGNATURE\\fR) or a gluing table (a line \\fBtri\\fR \\fIN\\fR and",
        "\\fIN\\fR rows). Blank lines and lines that begin with # are ignored.", ".SH COMMANDS",
    ]
    for command in commands:
        lines += entry(command)
    lines += [
        ".SH OPTIONS", r"Options are written \fB\-\-\fIname value\fR or \fB\-\-\fIname\fR=\fIvalue\fR, in any order, each at most once.",
        "The default is the first value listed, or the greatest number. Options without brackets are required.", ".SH EXIT STATUS",
    ]
    for status, meaning in STATUSES:
        lines += [".TP", rf"\fB{status}\fR", roff(meaning)]
    lines += [
        ".SH EXAMPLES", ".TP", "All vertex normal surfaces of the figure-eight knot complement:", r"echo sig cPcbbbiht | trinorm surfaces",
        ".TP", "Are two triangulations isomorphic?", r"printf \(aqsig bkaagn\ensig bkaagj\en\(aq | trinorm same",
    ]
    lines += [
        ".SH FILES", r"The folder of the installation has documentation, examples and licences in \fIshare/doc/trinorm\fR, and the program with its",
        r"MANIFEST in \fIlibexec/trinorm\fR.", ".SH AUTHORS", "The trinorm authors.",
    ]
    return "\n".join(lines) + "\n"


def option_values(commands: Sequence[Command]) -> Dict[str, List[str]]:
    """For each option with named values the commands that have it, by the values: `COMMAND NAME` to values."""
    return {f"{command.name} {option.name}": list(option.values) for command in commands for option in command.options if option.values}


def bash(commands: Sequence[Command]) -> str:
    names = " ".join(command.name for command in commands)
    options = "\n".join(f"      {command.name}) words='{' '.join(f'--{option.name}' for option in command.options)}' ;;"
                        for command in commands if command.options)
    branches = "\n".join(f"      '{key.replace(' ', ' --')}') words='{' '.join(words)}' ;;" for key, words in option_values(commands).items())
    return f"""# Bash completion for trinorm.
_trinorm() {{
  local words='' word=${{COMP_WORDS[COMP_CWORD]}} before=${{COMP_WORDS[COMP_CWORD-1]}}
  if [ "$word" = = ]; then
    word=''
  elif [ "$before" = = ]; then
    before=${{COMP_WORDS[COMP_CWORD-2]}}
  fi
  if [ "$COMP_CWORD" -eq 1 ]; then
    words='{names}'
  else
    case "${{COMP_WORDS[1]}}" in
{options}
    esac
    case "${{COMP_WORDS[1]}} $before" in
{branches}
      *' --'*) words='' ;;
    esac
  fi
  COMPREPLY=($(compgen -W "$words" -- "$word"))
}}
complete -o default -F _trinorm trinorm
"""


def zsh(commands: Sequence[Command]) -> str:
    def argument(option: Option) -> str:
        return f"'--{option.name}=[{values(option)}]:{option.name}:({' '.join(option.values)})'"

    names = "\n".join(f"    '{command.name}:{command.answers}'" for command in commands)
    cases = "\n".join(f"    {command.name}) _arguments {' '.join(argument(option) for option in command.options)} ;;"
                      for command in commands if command.options)
    return f"""#compdef trinorm
# Zsh completion for trinorm.
_trinorm() {{
  local -a commands
  commands=(
{names}
  )
  if (( CURRENT == 2 )); then
    _describe command commands
    return
  fi
  local command=$words[2]
  shift words
  (( CURRENT-- ))
  case $command in
{cases}
  esac
}}
_trinorm "$@"
"""
