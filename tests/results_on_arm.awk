# Turns the module of the archive, which is made for x86-64, into one for Arm (tests/linked.sh): a result of more than 16 bytes goes
# through memory on both, but on x86-64 the pointer to it is the first argument and is handed back, and on Arm it has a register of its
# own, which LLVM gives to an argument marked `sret`. In the module such a function is one that others can call and that returns a
# pointer; no call of ours returns one otherwise.
/^define noundef ptr @[a-z_]+\(ptr noundef %a0/ {
    sub(/noundef ptr/, "void")
    sub(/ptr noundef %a0/, "ptr noundef sret(i8) %a0")
    through_memory = 1
}

through_memory && /^ *ret ptr / {
    $0 = "  ret void"
}

/^}/ {
    through_memory = 0
}

{
    print
}
