# Reads the text of an LLVM module that rt makes for x86-64 and prints it for Arm (AAPCS64). Code and data are the same for
# both. What C passes isn't, so this changes the functions that C calls, which are all that are not internal:
# - An answer of more than two words is stored where the first parameter points, and that pointer is given back. On Arm it
#   has a register of its own, which `sret` says, and is not given back. (How large the answer is need not be said.)
# - A parameter of more than two words lies on the stack (`byval`). On Arm a pointer to it comes instead.
# - All else is passed alike: numbers, pointers, and structs of one or two words as long as they are in registers. The words
#   of a struct are those without `noundef`. No number is said to be extended by the caller, which Arm's C doesn't do.
# Data may only be constant bytes that nobody else sees, as texts in the code are.
# Whatever it doesn't know ends it with status 1.
function unknown(why) {
    print "arm.awk: " why ": " $0 > "/dev/stderr"
    failed = 1
    exit 1
}

# NAME, ANSWER and PARAMETERS of an exported function, as it is declared for Arm
function exported(name, answer, parameters,    each, n, k, list, word) {
    n = parameters == "" ? 0 : split(parameters, each, ", ")
    by_memory = answer == "noundef ptr"
    if (by_memory && each[1] != "ptr noundef %a0") unknown("a pointer is answered")
    if (!by_memory && answer !~ /^(void|noundef i(8|16|32|64)|noundef zeroext i1|i(8|16|32|64)|\{ i64, i64 \})$/)
        unknown("this answer is not known")
    for (k = 1; k <= n; k++) {
        word = k - by_memory # from 1; Arm has eight registers for them
        if (by_memory && k == 1) each[k] = "ptr noundef sret(i8) %a0"
        else if (each[k] ~ /^ptr noundef byval\(\[[0-9]+ x i8\]\) align 8 %a[0-9]+$/) sub(/ byval.* align 8/, "", each[k])
        else if (each[k] ~ /^i64 %a[0-9]+$/ && word > 8) unknown("a struct may be half in a register")
        else if (each[k] !~ /^(ptr noundef|i(1|8|16|32|64) noundef|i64) %a[0-9]+$/) unknown("this parameter is not known")
        list = list (k > 1 ? ", " : "") each[k]
    }
    return "define " (by_memory ? "void" : answer) " @" name "(" list ")"
}

/^target datalayout / { next } # the compiler has Arm's
/^target triple / {
    if ($0 != "target triple = \"x86_64-unknown-linux-gnu\"") unknown("not made for x86-64")
    print "target triple = \"aarch64-unknown-linux-gnu\""
    made_for = 1
    next
}
/^attributes / {
    sub(/ "target-cpu"="x86-64"/, "")
    if (/"(target|tune)-/) unknown("a word for one processor")
    print
    next
}
/^define internal / {
    by_memory = 0
    print
    next
}
/^define / {
    head = $0
    if (!match(head, / @[A-Za-z0-9_]+\(/)) unknown("an exported name")
    answer = substr(head, 8, RSTART - 8)
    name = substr(head, RSTART + 2, RLENGTH - 3)
    rest = substr(head, RSTART + RLENGTH)
    if (!match(rest, /\) #[0-9]+ \{$/)) unknown("the end of a declaration")
    print exported(name, answer, substr(rest, 1, RSTART - 1)) substr(rest, RSTART + 1)
    functions++
    next
}
/^  ret / && by_memory {
    if ($0 != "  ret ptr %a0") unknown("another answer than the first parameter")
    print "  ret void"
    next
}
/^@static\.[0-9]+ = private unnamed_addr constant \[[0-9]+ x i8\] c"[^"]*", align 1$/ {
    print
    next
}
/^(@|module asm)/ || / asm / || /@llvm\.x86/ { unknown("only for x86-64, or data for others") }
{
    # names of Rattle's own functions stand in quotes
    names = $0
    gsub(/@llvm\.|@static\.[0-9]+/, "", names)
    if (names ~ /@[A-Za-z_]/) unknown("a call of C, or of what C calls")
    print
}
END {
    if (failed) exit 1
    if (!made_for || !functions) {
        print "arm.awk: this is no module with functions for C" > "/dev/stderr"
        exit 1
    }
}
