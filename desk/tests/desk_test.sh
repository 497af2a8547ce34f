#!/bin/sh
# The desk program as a person uses it: what it prints, its exit status, and the bytes of its file.
# Argument: the program.
set -u
program=$(cd "$(dirname "$1")" && pwd)/$(basename "$1")
folder=$(mktemp -d "$(dirname "$program")/desk_test.XXXXXX")
trap 'rm -rf "$folder"' EXIT
cd "$folder" || exit 1
commands=0

fail() {
    echo "FAILED: desk_test: $1" >&2
    exit 1
}

# Runs the desk with these words, from standard input if it is to read commands. Both of its outputs are looked at.
expect() { # STATUS OUTPUT WORDS...
    status=$1 output=$2
    shift 2
    commands=$((commands + 1))
    printed=$("$program" "$@" 2>&1)
    got=$?
    [ "$got" = "$status" ] || fail "$*: status $got, expected $status: $printed"
    [ "$printed" = "$output" ] || fail "$*: printed
$printed
expected
$output"
}

# Does the same; the board's file must keep its bytes (or its absence).
expect_kept() { # STATUS OUTPUT WORDS...
    rm -f kept
    [ ! -e room.board ] || cp room.board kept
    expect "$@"
    if [ -e kept ]; then
        cmp -s room.board kept || fail "$*: the file was changed"
    else
        [ ! -e room.board ] || fail "$*: the file was made"
    fi
}

# Expects the wall sheet on standard output, byte for byte: these lines, each with blanks up to 68 characters and a line feed.
expect_sheet() { # LINES...
    commands=$((commands + 1))
    cp room.board kept
    printf '%-68s\n' "$@" >expected
    "$program" room.board sheet >printed || fail "sheet: status $?"
    cmp -s printed expected || fail "sheet: printed
$(cat printed)
expected
$(cat expected)"
    cmp -s room.board kept || fail "sheet: the file was changed"
    rm printed expected
}

sizes="desk: room.board: refused (1): byte length odd or below 8, benches not 1 to 500, jobs not 1 to 4000, or length not that of so many benches and jobs"
unsound="desk: room.board: refused (2): sizes fit, table not sound"
unreadable="desk: room.board: refused (2): a record on these benches' chains is damaged or out of order; \
\`check\` tells whether the board is sound, and \`level 0\` puts a sound one in order"
missing="desk: room.board: cannot read the file: No such file or directory"

# No file yet.
for words in "take 1 1 2" "close 1" "load 1" heaviest "between 1 2" "tight 1" show sheet check level-check level; do
    expect_kept 3 "$missing" room.board $words
done
expect_kept 1 "$sizes" room.board new 501 4000
expect_kept 1 "$sizes" room.board new 500 4001
expect_kept 1 "$sizes" room.board new 4294967295 4294967295
expect_kept 1 "$sizes" room.board renew 3 0

# The scope's run, each command in a run of its own: the second sees the table of the first.
expect 0 "The board is new: benches 1 to 3, jobs 1 to 4." room.board new 3 4
[ "$(wc -c <room.board)" -eq 46 ] || fail "new: the file is not the table"
expect_kept 3 "desk: room.board: cannot make the file: File exists (renew replaces it)" room.board new 3 4
expect_kept 0 "The board is sound: benches 1 to 3, jobs 1 to 4, no jobs standing." room.board check
expect_kept 0 "No job stands between benches 1 and 2; no records read." room.board between 1 2
expect 0 "Job 1 goes to bench 1. Bench 1 has one job more; no other jobs move." room.board take 1 1 2
expect 0 "Job 2 goes to bench 2. Bench 2 has one job more; no other jobs move." room.board take 2 2 3
expect 0 "Job 3 goes to bench 1. Bench 3 has one job more; jobs 1, 2 move.
Job 1 moves from bench 1 to bench 2.
Job 2 moves from bench 2 to bench 3." room.board take 3 1 2
expect_kept 0 "Tight at height 1: 3 benches with 3 jobs among themselves: 1 2 3
However these jobs are shared, one of these benches holds 1 or more." room.board tight 1
expect_kept 0 "Bench 1 holds 1 job: 3
Bench 2 holds 1 job: 1
Bench 3 holds 1 job: 2" room.board show
expect_sheet "  1    1    3" "  2    1    1" "  3    1    2"
expect_kept 0 "Job 1 stands between benches 1 and 2; 2 records read." room.board between 1 2
expect_kept 0 "Job 1 stands between benches 2 and 1; 1 record read." room.board between 2 1
expect_kept 0 "Job 2 stands between benches 2 and 3; 2 records read." room.board between 2 3
expect_kept 0 "No job stands between benches 1 and 3; 2 records read." room.board between 1 3
expect 0 "Job 2 is closed. Bench 3 has one job less; no jobs move." room.board close 2
expect_kept 0 "No job stands between benches 3 and 2; 1 record read." room.board between 3 2
expect_sheet "  1    1    3" "  2    1    1" "  3    0"
expect_kept 0 "Bench 3 holds no jobs." room.board show 3
expect_kept 0 "Bench 2 holds 1 job." room.board load 2
expect_kept 0 "The heaviest bench holds 1 job." room.board heaviest
expect_kept 0 "The board is level." room.board level-check
expect 0 "The board is level; no paths turned." room.board level

# Refused: the words, the number, status 1, and every byte stays.
expect_kept 1 "desk: room.board: refused (6): closing of a job not standing" room.board close 2
expect_kept 1 "desk: room.board: refused (3): job number not one of the board's" room.board close 5
expect_kept 1 "desk: room.board: refused (4): bench not one of the board's, or both benches the same" room.board take 2 2 2
expect_kept 1 "desk: room.board: refused (4): bench not one of the board's, or both benches the same" room.board load 4
expect_kept 1 "desk: room.board: refused (4): bench not one of the board's, or both benches the same" room.board show 0
expect_kept 1 "desk: room.board: refused (4): bench not one of the board's, or both benches the same" room.board between 2 2
expect_kept 1 "desk: room.board: refused (4): bench not one of the board's, or both benches the same" room.board between 1 4
expect_kept 1 "desk: room.board: refused (5): arrival of a standing job" room.board take 1 1 2
expect_kept 1 "desk: room.board: refused (7): height 0, or above the heaviest load" room.board tight 2

# Not understood: status 2, and every byte stays.
expect_kept 2 "desk: room.board: no such command: tke (help lists them)" room.board tke 4 1 2
expect_kept 2 "desk: room.board: take: wrong number of numbers: \
take JOB BENCH BENCH  a job arrives that either bench can do; says which others to carry, and where" room.board take 4 1
expect_kept 2 "desk: room.board: close: wrong number of numbers: \
close JOB             a job is done; says which jobs to carry, and where" room.board close
expect_kept 2 "desk: room.board: check: wrong number of numbers: check                 whether the board is sound" room.board check 1
expect_kept 2 "desk: room.board: sheet: wrong number of numbers: sheet                 the wall sheet, to print and pin up: bench, load and jobs in columns" room.board sheet 1
expect_kept 2 "desk: room.board: between: wrong number of numbers: \
between BENCH BENCH   the lowest job that names both benches, in a file that is in order (see level)" room.board between 1
for number in -1 +1 1x 0x1 "" " 1" 1.0 4294967296 18446744073709551617; do
    expect_kept 2 "desk: room.board: close: not a number of 0 to 4294967295: $number" room.board close "$number"
done

# Help lists every command.
commands=$((commands + 1))
"$program" help >printed || fail "help: status $?"
for word in new renew take close load heaviest between tight show sheet check level-check level help; do
    grep -q "^  $word " printed || fail "help: $word is missing"
done
rm printed

# Commands from standard input: the worst status is the run's, and the others are done.
expect 2 "Job 4 goes to bench 3. Bench 3 has one job more; no other jobs move.
desk: room.board: line 2: refused (5): arrival of a standing job
desk: room.board: line 4: no such command: nonsense (help lists them)
Job 2 goes to bench 2. Bench 2 has one job more; no other jobs move." room.board <<END
take 4 2 3
take 4 2 3

nonsense
  take	2  2 3
END
expect_kept 0 "The heaviest bench holds 2 jobs." room.board heaviest
expect_kept 0 "" room.board </dev/null
expect_kept 2 "desk: room.board: line 1: line too long, or not text
Bench 1 holds 1 job." room.board <<END
$(printf '%0300d' 0)
load 1
END
expect_kept 0 "Bench 1 holds 1 job." room.board <<END
$(printf 'load 1')
END

# Expects every command but renew to refuse a damaged file, with the refusal's words, and never to write it. `between` may have words of its own.
damaged() { # OUTPUT [OUTPUT-OF-BETWEEN]
    for words in "take 1 1 2" "close 1" "load 1" heaviest "tight 1" show "show 1" sheet check level-check level "level 0"; do
        expect_kept 1 "$1" room.board $words
    done
    expect_kept 1 "${2:-$1}" room.board between 1 2
    expect_kept 3 "desk: room.board: cannot make the file: File exists (renew replaces it)" room.board new 3 4
}
cp room.board whole
printf '\377' | dd of=room.board bs=1 seek=8 conv=notrunc 2>/dev/null
damaged "$unsound" "$unreadable"
head -c 45 whole >room.board
damaged "$sizes"
: >room.board
damaged "$sizes"
head -c 40000 /dev/zero >room.board
damaged "$sizes"
printf 'Dear all, this is not a board.\n' >room.board
damaged "$sizes"

# A table of another's making that is not level, its chain in no order: bench 1 holds three jobs that name 1 and 2.
printf '\002\000\003\000\003\000\000\000\002\000\000\000\001\000\002\000\001\000\000\000\001\000\002\000\001\000\003\000\001\000\002\000\001\000\001\000' >room.board
expect_kept 0 "The board is not level." room.board level-check
expect_kept 0 "Bench 1 holds 3 jobs: 1 2 3
Bench 2 holds no jobs." room.board show
expect_sheet "  1    3    1    2    3" "  2    0"
printf '\002\000\003\000\003\000\000\000\001\000\000\000\001\000\002\000\001\000\002\000\001\000\002\000\001\000\003\000\001\000\002\000\001\000\000\000' >ordered
expect 0 "The board is not level yet; no paths turned." room.board level 0
cmp -s room.board ordered || fail "level 0: the file is not the same board in order"
expect 0 "The board is level; 1 path turned.
Job 1 moves from bench 1 to bench 2." room.board level
expect 0 "Job 2 is closed. Bench 1 has one job less; no jobs move." room.board close 2
expect_kept 0 "Tight at height 1: 2 benches with 2 jobs among themselves: 1 2
However these jobs are shared, one of these benches holds 1 or more." room.board tight 1

# Another, sound and in no order: bench 1 of three holds jobs 3, 1 and 2 in this order, 1 and 2 for bench 2, 3 for bench 3.
printf '\003\000\003\000\003\000\000\000\003\000\000\000\000\000'\
'\001\000\002\000\001\000\002\000\001\000\002\000\001\000\000\000\001\000\003\000\001\000\001\000' >room.board
expect_kept 0 "The board is sound: benches 1 to 3, jobs 1 to 3, 3 jobs standing." room.board check
expect_kept 1 "$unreadable" room.board between 1 2
expect_kept 1 "$unreadable" room.board between 2 1
expect 0 "The board is not level yet; no paths turned." room.board level 0
expect_kept 0 "Job 1 stands between benches 1 and 2; 1 record read." room.board between 1 2
expect_kept 0 "Job 1 stands between benches 2 and 1; 1 record read." room.board between 2 1
expect_kept 0 "Job 3 stands between benches 3 and 1; 3 records read." room.board between 3 1

# A wrong holder in job 2's record: `between` refuses where it reads that record, and only there.
printf '\003' | dd of=room.board bs=1 seek=26 conv=notrunc 2>/dev/null
expect_kept 1 "$unsound" room.board check
expect_kept 1 "$unreadable" room.board between 1 3
expect_kept 0 "Job 1 stands between benches 1 and 2; 1 record read." room.board between 1 2
expect_kept 0 "No job stands between benches 2 and 3; no records read." room.board between 2 3
expect_kept 1 "$unsound" room.board level 0

# Two files that came to the same sharing in different ways can be matched byte for byte.
do_all() { # FILE COMMANDS...
    file=$1
    shift
    for words; do
        commands=$((commands + 1))
        "$program" "$file" $words >/dev/null || fail "$file: $words: status $?"
    done
}
do_all one.board "new 2 4" "take 1 1 2" "take 2 1 2" "take 3 1 2"
do_all other.board "new 2 4" "take 3 1 2" "take 2 1 2" "take 4 2 1" "take 1 2 1" "close 1" "close 4" "take 1 1 2"
[ "$("$program" one.board show)" = "$("$program" other.board show)" ] || fail "the two files do not hold the same sharing"
cmp -s one.board other.board || fail "two files with the same sharing differ"

# Jobs to carry: one, and several in the order in which they are handed along, not in that of their numbers.
expect 0 "Job 2 is closed. Bench 1 has one job less; job 1 moves.
Job 1 moves from bench 1 to bench 2." one.board close 2
do_all other.board "renew 4 6" "take 3 1 2" "take 2 2 3" "take 1 3 4" "take 4 4 1" "take 5 1 2"
expect 0 "Job 4 is closed. Bench 1 has one job less; jobs 3, 2, 1 move.
Job 3 moves from bench 1 to bench 2.
Job 2 moves from bench 2 to bench 3.
Job 1 moves from bench 3 to bench 4." other.board close 4

# Makes the board's file of the words that an awk program gives.
make_file() { # AWK
    printf "$(awk 'function word(n) { printf "\\%03o\\%03o", n % 256, int(n / 256) } BEGIN { '"$1"' }')" >room.board
}

# The most jobs to carry: each of 500 benches but the last holds a job for the next one, and their numbers fall.
make_file '
    word(500); word(4000); word(499); word(0)
    for (b = 1; b <= 500; b++) word(500 - b)
    for (j = 1; j <= 499; j++) { word(500 - j); word(501 - j); word(1); word(0) }
    for (i = 1; i <= 4 * 3501; i++) word(0)'
expect 0 "$(awk 'BEGIN {
    printf "Job 500 goes to bench 1. Bench 500 has one job more; jobs "
    for (j = 499; j >= 1; j--) printf "%d%s", j, (j > 1 ? ", " : " move.\n")
    for (j = 499; j >= 1; j--) printf "Job %d moves from bench %d to bench %d.\n", j, 500 - j, 501 - j
}')" room.board take 500 1 2

# The longest answers, whole: bench 1 of 500 holds 4,000 jobs, and all but eight of them leave it.
make_file '
    word(500); word(4000); word(4000); word(0); word(1)
    for (b = 2; b <= 500; b++) word(0)
    for (j = 1; j <= 4000; j++) { word(1); word(2 + j % 499); word(1); word(j < 4000 ? j + 1 : 0) }'
expect_long() { # BYTES LAST-LINE WORD
    commands=$((commands + 1))
    "$program" room.board "$3" >printed || fail "$3: status $?"
    [ "$(wc -c <printed)" -eq "$1" ] || fail "$3: printed $(wc -c <printed) bytes, expected $1"
    [ "$(tail -n 1 printed)" = "$2" ] || fail "$3: the last line is
$(tail -n 1 printed)"
    rm printed
}
expect_long 57477 "$(printf '%-68s' "500    0")" sheet
expect_long 165748 "Job 3992 moves from bench 1 to bench 2." level

# A new board in place of the file; its permissions and a link to it stay.
chmod 640 room.board
ln -s room.board link.board
expect 0 "The board is new: benches 1 to 500, jobs 1 to 4000." link.board renew 500 4000
expect 0 "Job 4000 goes to bench 500. Bench 500 has one job more; no other jobs move." link.board take 4000 500 1
[ -L link.board ] || fail "a link became a file"
[ "$(ls -l room.board | cut -c1-10)" = "-rw-r-----" ] || fail "the file's permissions changed"
expect_kept 0 "Bench 500 holds 1 job: 4000" room.board show 500

# Twenty desks at once: none loses another's job.
job=1
while [ "$job" -le 20 ]; do
    "$program" room.board take "$job" "$job" "$((job + 1))" >/dev/null &
    job=$((job + 1))
done
wait
expect_kept 0 "The board is sound: benches 1 to 500, jobs 1 to 4000, 21 jobs standing." room.board check

# An answer that nobody can read is no success; the change stays.
if [ -e /dev/full ]; then
    "$program" room.board close 4000 >/dev/full 2>printed && fail "an answer that was not written counts as done"
    [ "$(cat printed)" = "desk: room.board: the answer cannot be written" ] || fail "lost answer: $(cat printed)"
    rm printed
    expect_kept 0 "Bench 500 holds no jobs." room.board show 500
fi

# Nothing is left beside the file.
rm -f kept whole ordered one.board other.board link.board
[ "$(ls)" = room.board ] || fail "files were left: $(ls)"
echo "desk_test: $commands runs of $(basename "$program"), as expected"
