#!/usr/bin/env bash
# Runs the benchmark once and writes what it prints into docs/BENCHMARK.md, below the heading 'Results of one run':
#
#     bash rust/benchmark/record.sh [KIND]
#
# KIND is the kind of the machine (`rattle` where none is given). To be run on a calm machine: the load is written down with the
# figures.
set -euo pipefail
cd "$(dirname "$0")/../.."
kind=${1:-rattle}
heading='## Results of one run'
page=docs/BENCHMARK.md
grep -qx "$heading" "$page"
work=$(mktemp -d)
trap 'rm -rf "$work"' EXIT
(cd rust && cargo build --release --offline -p benchmark)
load=$(cut -d ' ' -f 1 /proc/loadavg)
memory=$(awk '/^MemTotal/ { print $2 + 524288 }' /proc/meminfo)
rust/target/release/benchmark >"$work/tables"
python=$(python3 -c 'import sys, graphql; print(f"graphql-core {graphql.version} on Python {sys.version.split()[0]}")' \
    2>"$work/said" || echo 'no graphql-core')
{
    sed "/^$heading\$/q" "$page"
    echo
    echo "A machine of the kind '$kind': $(nproc) cores, $(uname -m), $((memory / 1048576)) GiB; $(rustc --version | cut -d ' ' -f 1-2); $python; load before the run $load."
    echo
    cat "$work/tables"
} >"$work/page"
cp "$work/page" "$page"
