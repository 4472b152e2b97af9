#!/usr/bin/env bash
# Tests the command ./judge on the static library:
#
#     bash tests/run_judge.sh
#
# Proves and builds the archive where it is missing or older than a source, and puts a C program that makes its call in the place of
# the program `cases`. Each line of the test says how the command must end and what it must print; the files are written here, in the
# words of tests/judging.py, but for 01's sample, which is what the program `answer` writes.
set -euo pipefail
cd "$(dirname "$0")/.."
name=run_judge
archive=target/staticlib/libsodgravel.a
source tests/linked.sh
wants rt gcc awk
build_archive
quiet gcc -std=c99 -O2 -Wall -Wextra -Wpedantic -Werror -Iinclude tests/c/one_case.c "$archive" -o "$work/one_case"
export SODGRAVEL_CASES=$work/one_case
tried=0

# Writes a file of tokens, given in words: labels `L3`, values `5`, brackets and N.
tokens() {
    local word file=$work/$1
    shift
    for word in "$@"; do
        case $word in
            L*) printf 'L\t%s\n' "${word#L}" ;;
            [0-9]*) printf 'V\t%s\n' "$word" ;;
            *) printf '%s\n' "$word" ;;
        esac
    done >"$file"
}

# judged STATUS OUTPUT FULL SHORTENED: holds the command's end and what it prints to what they must be.
judged() {
    local status=0
    ./judge "$work/$3" "$work/$4" >"$work/out" 2>"$work/said" || status=$?
    [ "$status" -eq "$1" ] || fail "./judge $3 $4 ends with $status, not $1: $(cat "$work/said")"
    [ "$(cat "$work/out")" = "$2" ] || fail "./judge $3 $4 prints $(cat "$work/out"), not $2"
    tried=$((tried + 1))
}

# complains TEXT: the command just tried said this of a file.
complains() {
    grep -qF "$1" "$work/said" || fail "./judge says '$(cat "$work/said")', and not '$1'"
}

refused_71=$'refused\t71\t0'
refused_72=$'refused\t72\t0'
cp crates/answer/stdout "$work/sample"
tail -n +2 "$work/sample" >"$work/bare"
tokens second L0 '[' '{' L9 18 '}' ']'
tokens cut L0 '[' '{' L2 '[' 5 ']' '}' ']'
tokens swapped L0 '[' '{' L9 18 '}' '{' L9 17 '}' ']'
tokens none
judged 0 yes sample sample
judged 0 yes sample bare
judged 0 yes bare sample
judged 0 yes sample second
judged 0 yes sample none
judged 0 yes none none
judged 1 no sample cut
judged 1 no sample swapped
judged 1 no none second
judged 1 no second sample

# What is no response, as the first and as the second file.
tokens label L256 5
tokens value L0 1000000000
tokens open L0 '{'
tokens unknown L0 x
tokens zeros L0 007
printf 'no\t50\t0\t18\t9\n' >"$work/refusal"
printf 'ok\t2\t1\nok\t2\t1\nL\t0\nV\t5\n' >"$work/heads"
printf 'L\t0\r\nV\t5\r\n' >"$work/crlf"
printf 'L\t0\nV\t5' >"$work/unended"
printf 'L\t0\nV\t5\0\n' >"$work/zero"
printf 'L 0\nV 5\n' >"$work/spaces"
for file in label value open unknown zeros refusal heads crlf unended zero spaces; do
    judged 4 "$refused_71" "$file" none
    judged 4 "$refused_72" sample "$file"
    judged 4 "$refused_71" "$file" "$file"
done
judged 4 "$refused_72" sample crlf
complains 'crlf: line 1 is no token'
judged 4 "$refused_72" sample unended
complains 'unended: the last line has no end'
judged 4 "$refused_72" sample zero
complains 'zero: there is a zero byte'
judged 4 "$refused_72" sample label
complains 'label: line 1 is no token'

# 16,384 tokens are a response, and 16,386 are none.
fields() {
    awk -v count="$1" 'BEGIN { for (i = 0; i < count; i++) print "L\t0\nV\t5" }'
}
fields 8192 >"$work/most"
fields 8193 >"$work/more"
judged 0 yes most most
judged 4 "$refused_71" more most
judged 4 "$refused_72" most more

# Wrong use, and an output that cannot be written.
judged 2 '' sample missing
judged 2 '' . sample
ends() {
    local status=0
    "${@:2}" 2>"$work/said" || status=$?
    [ "$status" -eq "$1" ] || fail "${*:2} ends with $status, not $1"
    tried=$((tried + 1))
}
ends 2 ./judge
ends 2 ./judge "$work/sample"
ends 2 ./judge "$work/sample" "$work/sample" "$work/sample"
full_output() { ./judge "$work/sample" "$work/$1" >/dev/full; }
closed_output() { ./judge "$work/sample" "$work/$1" >&-; }
ends 3 full_output sample
ends 3 full_output cut
ends 3 closed_output sample
CDPATH=/tmp:/ ends 0 bash -c 'cd / && "${0#/}/judge" "$1" "$2" >/dev/null' "$PWD" "$work/sample" "$work/sample"
SODGRAVEL_CASES=/bin/false ends 3 ./judge "$work/sample" "$work/sample"
SODGRAVEL_CASES=/bin/true ends 3 ./judge "$work/sample" "$work/sample"
say "./judge ended and printed as it must, $tried times"
