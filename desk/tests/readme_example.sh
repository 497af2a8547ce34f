#!/bin/sh
# The first C example of a README: compiled as printed, run, and compared with the text block that follows it.
# Arguments: the README, the folder of the header, the archive, a folder to work in.
set -eu
readme=$1 include=$2 archive=$3 out=$4

# Prints the first block of a kind that standard input has.
block() {
    awk -v fence="\`\`\`$1" '!inside && !done && $0 == fence { inside = 1; next } inside && $0 == "```" { inside = 0; done = 1 } inside'
}

block c <"$readme" >"$out/example.c"
awk '/^```c$/ { seen = 1 } seen' "$readme" | block text >"$out/example.expected"
if [ ! -s "$out/example.c" ] || [ ! -s "$out/example.expected" ]; then
    echo "FAILED: readme: $readme has no C example with a text block after it" >&2
    exit 1
fi
${CC:-cc} -std=c99 -Wall -Wextra -Werror -I"$include" "$out/example.c" "$archive" -o "$out/example"
"$out/example" >"$out/example.printed"
if ! diff "$out/example.expected" "$out/example.printed" >&2; then
    echo "FAILED: readme: the example prints something else (< README, > printed)" >&2
    exit 1
fi
echo "readme: the C example compiles as printed and prints what the README says"
