#!/bin/sh
# Runs the installed program with the words given; where standard error is a terminal, with a few words on what is wanted.
# Standard input, standard output and the exit status are the program's own.
case $0 in */*) here=${0%/*} ;; *) here=. ;; esac
[ -L "$0" ] && here=$(dirname "$(readlink -f "$0")")
here=$here/../libexec/trinorm
program=$here/trinorm
[ -t 2 ] || exec "$program" "$@"

# from here on standard error is a terminal
commands=$here/commands.txt version_file=$here/version
examples=$(readlink -f "$here/../../share/doc/trinorm/examples") pages='see also the manual page trinorm(1)'
. "$here/hints.sh"
