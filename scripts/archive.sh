#!/usr/bin/env bash
# Proves the static library, and writes it to target/staticlib/libsodgravel.a, for x86-64 Linux:
#
#     bash scripts/archive.sh
#
# `rt lib` makes the archive in the folder of the crate that has the calls under C names.
set -euo pipefail
cd "$(dirname "$0")/.."
(cd crates/sodgravel_c && rt lib)
mkdir -p target/staticlib
cp crates/sodgravel_c/out/libsodgravel_c.a target/staticlib/libsodgravel.a
