#!/bin/sh
# Is a triangulation 0-efficient by its numbers?
#
#     sh examples/zero-efficient.sh < TRIANGULATION
#
# TRIANGULATION is a line `sig SIGNATURE` or a gluing table. The program is `trinorm`, or the one that the variable TRINORM
# names. Printed are what `info` says of it, and its kind: closed, ideal or bounded, with the kinds of those closed vertex links
# that are no spheres, as `kind ideal torus 2`; what is true of closed triangulations need not be true of others. It is invalid if
# a vertex link has boundary and is no disc, since a manifold has no such vertex. All vertex surfaces in standard coordinates are listed and described, in parts that fit into one input, and the counts are compared.
# Status 0: each connected normal surface of positive Euler characteristic is a vertex link; 1: a vertex surface is not, and
# the first one is printed; 2: a command was refused or failed, or an answer was cut off.
set -u
export LC_ALL=C
trinorm=${TRINORM:-trinorm}
folder=$(mktemp -d) || exit 2
export folder
trap 'rm -rf "$folder"' EXIT
trap 'exit 2' HUP INT TERM
most=1048576

fail() {
    echo "zero-efficient: $1" >&2
    exit 2
}

# a triangulation whose last line lacks its end gets one
{ cat && echo; } >"$folder/triangulation"
"$trinorm" info <"$folder/triangulation" >"$folder/info" || fail "info: $(cat "$folder/info")"
"$trinorm" surfaces <"$folder/triangulation" >"$folder/list" || fail "surfaces: $(cat "$folder/list")"
listed=$(sed -n '1s/^# surfaces //p' "$folder/list")
[ "$(grep -c '^vec ' "$folder/list")" = "$listed" ] || fail 'the output of `surfaces` is incomplete'

# the vectors in parts, each of which fits into one input with the triangulation
room=$((most - $(wc -c <"$folder/triangulation")))
awk -v room="$room" '
    $1 != "vec" { next }
    { size += length($0) + 1 }
    !part || size > room {
        if (part) close(part)
        part = sprintf("%s/part-%06d", ENVIRON["folder"], ++parts)
        size = length($0) + 1
    }
    { print >part }' "$folder/list" || fail "the list could not be divided"
: >"$folder/described"
for part in "$folder"/part-*; do
    [ -f "$part" ] || continue
    cat "$folder/triangulation" "$part" | "$trinorm" describe >"$folder/answer" || fail "describe: $(cat "$folder/answer")"
    cat "$folder/answer" >>"$folder/described" || fail "the temporary folder is full"
done
[ "$(grep -c '^euler ' "$folder/described")" = "$listed" ] || fail 'the output of `describe` is incomplete'

grep -E '^(orientable|closed) ' "$folder/info"
# `closed` says only that there is no boundary face; closed as a manifold is what has a sphere as each vertex link
awk '
    $1 == "closed" { kind = $2 == "no" ? "bounded" : "closed" }
    $1 == "vertex" && $8 == "yes" && $10 != "sphere" { links[$10 == "other" && $6 == 1 ? "projective-plane" : $10]++; ideal = 1 }
    $1 == "vertex" && $8 == "no" && $10 != "disc" { kind = "invalid" }
    END {
        printf "kind %s", kind == "closed" && ideal ? "ideal" : kind
        names = split("projective-plane torus klein other", name)
        for (i = 1; i <= names; i++) if (links[name[i]]) printf " %s %d", name[i], links[name[i]]
        printf "\n"
    }' "$folder/info"
echo "surfaces $listed"
awk '
    $1 == "vec" { vector = $0 }
    $1 == "euler" && $2 > 0 && $4 == "no" && !others++ { shown = vector "\n" $0 }
    END {
        print "positive and not linking " others + 0
        if (others) print shown
        exit others > 0
    }' "$folder/described"
