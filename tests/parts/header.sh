# shellcheck shell=sh
# shellcheck disable=SC2154 # tests/run, which reads this, has the variables
# The header as each language takes it, and what it names beside what the library does.

# shellcheck disable=SC2086 # strict is a list of options
header_as() { # COMPILER LANGUAGE STANDARD...
    compiler=$1 language=$2
    shift 2
    for standard in "$@"; do
        "$compiler" -x "$language" -std="$standard" $strict -fsyntax-only include/lutniorad.h || return 1
    done
}

step 'the header is C99, C11 and C17' header_as "$cc" c c99 c11 c17
step 'the header is C++98, C++11, C++17 and C++20' header_as g++ c++ c++98 c++11 c++17 c++20
step 'what holds the names of the header is built' build names tests/names.c tests/even.c
step 'refusals, sentences, what is said, limits and room are as the header names them' run names
