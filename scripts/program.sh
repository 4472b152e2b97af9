# What ./answer and ./judge share. Sourced at the root of the repository.

# Proves and builds the program of a crate where it is missing or older than a source (minutes, the first time), and says nothing of
# that unless it fails: `rt run` does both, and runs it once, on no input. `program` then is the program's path.
ready() {
    local said
    program=$PWD/target/bin/$1
    if [ ! -x "$program" ] || [ -n "$(find crates crates.txt -name out -prune -o -newer "$program" -type f -print -quit)" ]; then
        if ! said=$(cd "crates/$1" && rt run </dev/null 2>&1); then
            echo "$said" >&2
            return 1
        fi
        mkdir -p target/bin
        cp "crates/$1/out/$1" "$program"
    fi
}
