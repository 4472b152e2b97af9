#!/usr/bin/env bash
# The kit's own clang, asked for Arm in place of x86-64, and given the module with large results as Arm has them. tests/linked.sh puts
# it in clang's place, with what it needs beside it.
set -euo pipefail
here=$(dirname "$0")
words=()
for word in "$@"; do
    case $word in
        --target=*) words+=(--target=aarch64-unknown-linux-gnu -Wno-override-module) ;;
        -march=*) ;;
        *.bc)
            "$here/own_clang" -x ir "$word" -Wno-override-module -Xclang -disable-llvm-passes -S -emit-llvm -o "$word.ll"
            awk -f "$here/results_on_arm.awk" "$word.ll" >"$word.arm.ll"
            words+=("$word.arm.ll")
            ;;
        *) words+=("$word") ;;
    esac
done
exec "$here/own_clang" "${words[@]}"
