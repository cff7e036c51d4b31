# shellcheck shell=sh
# shellcheck disable=SC2154 # tests/run, which reads this, has the variables
# The stack, by how the memset and memcpy that the archive asks for are linked.

# The program must not call the two itself before the library does: neither in its text nor for a loop.
# shellcheck disable=SC2086 # strict is a list of options
compile_stack() {
    for source in stack even; do
        "$cc" -std=c99 -O2 $strict -Wshadow -Wconversion -fno-tree-loop-distribute-patterns -Iinclude -c \
            -o "$files/$source.o" "tests/$source.c" || return 1
    done
    ! "$nm" -P "$files/stack.o" "$files/even.o" | grep -E '^mem(set|cpy) U'
}

link_stack() { # PROGRAM OPTION...
    program=$1
    shift
    "$cc" "$@" -o "$built/$program" "$files/stack.o" "$files/even.o" "$archive"
}

build_stack() {
    rm -f "$built/stack" "$built/stack-now" "$built/stack-lazy" # so that no older one is run
    compile_stack && link_stack stack -static && link_stack stack-now -Wl,-z,now && link_stack stack-lazy -Wl,-z,lazy
}

step 'what looks at the stack is built' build_stack
step 'a call takes little stack where it is linked statically' run stack
step 'a call takes little stack where the loader binds at the start' run stack-now
step 'all but the first call take little stack where the loader binds late' run stack-lazy lazy
