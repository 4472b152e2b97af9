# What tests/run_c.sh, tests/run_judge.sh and tests/run_rust.sh share. Each sets `name`, its own, and `archive`, and sources this file
# at the root of the repository. Each step says one line, and the first that fails ends the run.
work=$(mktemp -d)
trap 'rm -rf "$work"' EXIT

say() {
    echo "$name: $*"
}

fail() {
    echo "$name: $*" >&2
    exit 1
}

# Runs a command; what it says is shown only where it fails.
quiet() {
    "$@" >"$work/said" 2>&1 || {
        cat "$work/said" >&2
        fail "failed: $*"
    }
}

# Fails where the archive cannot be linked, or a tool is missing.
wants() {
    local tool
    for tool in "$@" readelf; do
        command -v "$tool" >"$work/said" || fail "there is no $tool on the path"
    done
    case "$(uname -s) $(uname -m)" in
        'Linux x86_64') machine=X86-64 ;;
        'Linux aarch64') machine=AArch64 && arm_kit ;;
        *) fail "the archive links only into programs for Linux on x86-64 or Arm, and this is $(uname -s) on $(uname -m)" ;;
    esac
}

# Links into a folder what another one has and the folder has not.
link_rest() {
    local part
    for part in "$1"/*; do
        [ -e "$2/${part##*/}" ] || ln -s "$part" "$2"
    done
}

# `rt` compiles for x86-64 alone. On Arm the tests link what the same clang makes, for this machine, of the same module: a kit that
# is the installed one but for its clang, which is asked for another target, and given the module with large results as Arm has them.
# `rt` takes the kit that its own file lies in, so it is copied.
arm_kit() {
    local home tools kit=$work/kit
    home=$(dirname "$(rt doc)")
    tools=$kit/toolchain/bin
    mkdir -p "$kit/bin" "$tools"
    cp "$home/bin/rt" "$home/bin/rtlib.py" "$kit/bin"
    ln -s "$PWD/tests/clang_on_arm.sh" "$tools/clang"
    ln -s "$PWD/tests/results_on_arm.awk" "$tools"
    ln -s "$home/toolchain/bin/clang" "$tools/own_clang"
    link_rest "$home/toolchain/bin" "$tools"
    link_rest "$home/toolchain" "$kit/toolchain"
    link_rest "$home/bin" "$kit/bin"
    link_rest "$home" "$kit"
    PATH=$kit/bin:$PATH
}

# Whether the archive is there, for this machine, and newer than every source.
archive_stands() {
    [ -f "$archive" ] && [ -z "$(find crates crates.txt -name out -prune -o -newer "$archive" -type f -print -quit)" ] &&
        readelf -h "$archive" 2>"$work/said" | grep -q "Machine:.*$machine"
}

# Proves and builds the archive where it does not stand.
build_archive() {
    if archive_stands; then
        say 'the archive is newer than every source'
    else
        quiet bash scripts/archive.sh
        archive_stands || fail "$archive is not for this machine"
        say "the archive is proved and built for $machine"
    fi
}

# Holds what a program prints of a folder to a file.
answers() {
    "$1" "$2" >"$work/out" || fail "$1 ended in an error on $2"
    cmp "$work/out" "$3" || fail "$1 prints something else on $2"
}

# Holds what a program prints of every folder of tests/vectors to what is expected there.
answers_vectors() {
    local folder folders=0
    for folder in tests/vectors/*/; do
        answers "$1" "$folder" "$folder/expected.txt"
        folders=$((folders + 1))
    done
    [ "$folders" -eq 164 ] || fail "there are $folders folders in tests/vectors, not 164"
    say "the example prints what is expected on $folders folders"
}

# Puts the README's ten lines of a language into a file.
ten_lines() {
    sed -n "/^\`\`\`$1\$/,/^\`\`\`\$/p" README.md | sed '/^```/d' >"$2"
    [ "$(wc -l <"$2")" -eq 10 ] || fail "README.md has $(wc -l <"$2") lines of $1, not ten"
}
