#!/usr/bin/env bash
# The counter program as a person uses it: an answer appears as soon as its line is complete, lines may be any length, and a write error
# ends it. usage: tests/counter.sh PROGRAM
set -euo pipefail
counter=$1

die() {
    echo "counter: $*" >&2
    exit 1
}

# Expects this answer to what was typed, while the input stays open.
answered() { # EXPECTED
    local answer
    IFS= read -r -t 10 answer <&"${desk[0]}" || die "no answer appeared where '$1' was expected"
    [ "$answer" = "$1" ] || die "answered '$answer' where '$1' was expected"
}

coproc desk { "$counter"; }
typed=${desk[1]}
printf 'B 3 4\n' >&"$typed" && answered 'B 3 4'
printf 'A 1 1 2\nA 2 2 ' >&"$typed" && answered 'A 1 1 1 0'
printf '3\n' >&"$typed" && answered 'A 2 2 2 0'
printf 'A 3 1 2\nS 1\n' >&"$typed" && answered 'A 3 1 3 2 1 2' && answered 'S 1 3 3 1 2 3'
printf 'H' >&"$typed"
exec {typed}>&-
answered 'R 10'

long=$({
    head -c 100000 /dev/zero | tr '\0' 'A'
    printf '\nH\n'
} | "$counter" | tr '\n' ' ')
[ "$long" = 'R 10 R 1 ' ] || die "a long line and H printed '$long'"

printf '' | "$counter" | cmp - /dev/null || die "an empty input printed something"

# Input that never ends, and an output that takes nothing.
status=0
yes H | timeout 10 "$counter" >/dev/full 2>/dev/null || status=$?
[ "$status" -ne 124 ] || die "it goes on although nothing can be written"

echo "counter: answers line by line, any length of line, ends where it can't write"
