#!/usr/bin/env bash
# Tests the static library from C:
#
#     bash tests/run_c.sh
#
# Proves and builds the archive where it is missing or older than a source, compiles the example and the README's ten lines as C99
# and as C++11 and the tests of tests/c, all with warnings as errors, and runs them: on the sample of 01, on every folder of
# tests/vectors, and under valgrind.
set -euo pipefail
cd "$(dirname "$0")/.."
name=run_c
archive=target/staticlib/libsodgravel.a
unset CPATH C_INCLUDE_PATH CPLUS_INCLUDE_PATH
source tests/linked.sh
wants rt gcc g++ nm valgrind
build_archive

# The archive defines the three calls for others to link, and needs nothing but what every C library has.
nm -g --defined-only "$archive" 2>"$work/said" | awk 'NF == 3 { print $3 }' | sort >"$work/defined"
printf 'sodgravel_answer\nsodgravel_judge\nsodgravel_size\n' | cmp -s - "$work/defined" ||
    fail "the archive defines: $(tr '\n' ' ' <"$work/defined")"
needs=$(nm -u "$archive" 2>"$work/said" | awk 'NF == 2 && $2 !~ /^mem(cpy|move|set)$/ { print $2 }')
[ -z "$needs" ] || fail "the archive needs: $needs"
say 'the archive defines the three calls and needs no other library'

c=(gcc -std=c99 -O2 -g -Wall -Wextra -Wpedantic -Werror -Iinclude)
cpp=(g++ -std=c++11 -O2 -g -Wall -Wextra -Werror -Iinclude -x c++)
ten_lines c "$work/ten_lines.c"
quiet "${c[@]}" examples/c/answer_sample.c "$archive" -o "$work/sample"
quiet "${cpp[@]}" examples/c/answer_sample.c -x none "$archive" -o "$work/sample_cpp"
quiet "${c[@]}" "$work/ten_lines.c" "$archive" -o "$work/ten_lines"
quiet "${cpp[@]}" "$work/ten_lines.c" -x none "$archive" -o "$work/ten_lines_cpp"
quiet "${c[@]}" tests/c/areas.c "$archive" -o "$work/areas"
quiet "${c[@]}" tests/c/judge.c "$archive" -o "$work/judge"
say "the header, the example, the tests and the README's ten lines compile without a warning, as C99 and C++11"

quiet "$work/ten_lines"
quiet "$work/ten_lines_cpp"
say "the README's ten lines are answered as they say"

answers "$work/sample" crates/answer/data crates/answer/stdout
answers "$work/sample_cpp" crates/answer/data crates/answer/stdout
say 'the example prints what the program answer prints'
answers_vectors "$work/sample"

"$work/areas" >"$work/out" || fail 'an area, a buffer or an outcome is not what it should be'
say "areas zero, buffers and outcomes right after $(cat "$work/out")"

"$work/judge" >"$work/judged" || fail 'a reply is not what it should be, or a sequence is changed'
say "shortened responses judged right in $(cat "$work/judged")"

grind=(valgrind --error-exitcode=1 --leak-check=full --quiet)
quiet "${grind[@]}" "$work/areas"
cmp "$work/said" "$work/out" || fail 'valgrind says something, or the test of areas does under it'
quiet "${grind[@]}" "$work/judge"
cmp "$work/said" "$work/judged" || fail 'valgrind says something, or the test of judging does under it'
quiet "${grind[@]}" "$work/sample"
cmp "$work/said" crates/answer/stdout || fail 'valgrind says something, or the example does under it'
say 'the example and the tests run clean under valgrind'
