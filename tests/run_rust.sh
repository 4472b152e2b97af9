#!/usr/bin/env bash
# Tests the static library from Rust:
#
#     bash tests/run_rust.sh
#
# Proves and builds the archive where it is missing or older than a source, builds the workspace in rust/ offline, and runs: the
# unit tests and the vectors of the independent implementation, the test of the declarations against include/sodgravel.h, the
# example on the sample of 01 and on every folder of tests/vectors, the README's ten lines, the differential test with its defaults
# of 20,000 cases and 40,000 pairs to judge, and 300 further cases and pairs of it under valgrind. SODGRAVEL_ARCHIVE and
# SODGRAVEL_HEADER name another archive and another header.
set -euo pipefail
cd "$(dirname "$0")/.."
name=run_rust
own=$PWD/target/staticlib/libsodgravel.a
archive=${SODGRAVEL_ARCHIVE:-$own}
export SODGRAVEL_ARCHIVE=$archive
source tests/linked.sh
wants rt cargo gcc valgrind

# cargo in rust/, offline, for release.
cargo_release() {
    (cd rust && cargo "$1" --release --offline "${@:2}")
}

if [ "$archive" = "$own" ]; then
    build_archive
else
    say "the archive is $archive"
fi

quiet cargo_release build --workspace --examples --bins
quiet cargo_release build -p sodgravel
say 'the workspace is built, for release and offline'

quiet cargo_release test -p independent
say 'the independent implementation passes its tests and agrees with the vectors'

quiet cargo_release test -p sodgravel
say "the declarations have the header's sizes, offsets, constants and parameters"

answers rust/target/release/examples/answer crates/answer/data crates/answer/stdout
say 'the example prints what the program answer prints'
answers_vectors rust/target/release/examples/answer

ten_lines rust "$work/ten_lines.rs"
quiet rustc --edition 2021 -D warnings --extern sodgravel=rust/target/release/libsodgravel.rlib "$work/ten_lines.rs" -o "$work/ten_lines"
"$work/ten_lines" >"$work/out" || fail "the README's ten lines end in an error"
printf 'ok\t2\t1\nL\t0\nV\t7\n' | cmp - "$work/out" || fail "the README's ten lines print something else than they say"
say "the README's ten lines are answered as they say"

# What the differential test said: how many cases, what the pairs were judged to be, and how it ended.
counts() {
    echo "$(head -1 "$work/said"); $(grep ' pairs: ' "$work/said"); $(tail -1 "$work/said")"
}

differential=rust/target/release/differential
quiet "$differential"
say "differential test: $(counts)"

quiet valgrind --error-exitcode=1 --leak-check=full --quiet "$differential" --cases 300 --pairs 300 --seed 3
say "differential test under valgrind: $(counts)"
