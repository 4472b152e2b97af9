# Turns a file of tokens as ./answer prints them into the numbers that the program `cases` reads: how many there are, and each, ten
# digits to a line. A head line `ok`, size, visits is passed over. A line that is no token becomes a number that is none, and the first
# such line is said on standard error. What comes behind 16,385 tokens makes no difference and is not read.
#
# In the environment FILE is the name to say, and SPOILT says what is wrong with the file as a whole, or nothing.
function number_of(line, shown) {
    if (line in marks) {
        return marks[line]
    }
    shown = substr(line, 3)
    if (line !~ /^[LV]\t[0-9]+$/ || shown ~ /^0[0-9]/ || length(shown) > 9) {
        return none
    }
    if (line ~ /^V/) {
        return sprintf("%010d", shown)
    }
    return shown + 0 > 255 ? none : sprintf("1000000%03d", shown)
}

function complain(what) {
    if (!complained) {
        print ENVIRON["FILE"] ": " what > "/dev/stderr"
    }
    complained = 1
}

BEGIN {
    none = "4294967295"
    marks["{"] = "2000000001"
    marks["}"] = "2000000002"
    marks["["] = "2000000003"
    marks["]"] = "2000000004"
    marks["N"] = "2000000005"
    count = 0
    if (ENVIRON["SPOILT"] != "") {
        complain(ENVIRON["SPOILT"])
        numbers[count++] = none
    }
}

NR == 1 && /^ok\t[0-9]+\t[0-9]+$/ {
    next
}

{
    number = number_of($0)
    if (number == none) {
        complain("line " NR " is no token")
    }
    numbers[count++] = number
    if (count > 16384) {
        exit
    }
}

END {
    printf "%010d\n", count
    for (i = 0; i < count; i++) {
        print numbers[i]
    }
}
