# shellcheck shell=sh
# shellcheck disable=SC2154 # tests/run, which reads this, has the variables
# The window program, on every case and on input that comes in small pieces.

dribble_window_program() {
    "$built/dribble" | run_window_program
}

# Does the command print what it is to print on each of these inputs? NAME.in has that in NAME.out, and stdin in stdout.
answers() { # COMMAND INPUT...
    command=$1 wrong=0
    shift
    for input in "$@"; do
        "$command" <"$input" >"$files/said" 2>"$files/errors"
        status=$?
        cmp "$files/said" "${input%in}out" 2>&1 && [ "$status" = 0 ] && continue
        echo "$input is not answered by status 0 and what ${input%in}out has, but by status $status and this:"
        head -n 20 "$files/errors" "$files/said"
        wrong=$((wrong + 1))
        [ "$wrong" -lt 5 ] || break # enough to see what is wrong
    done
    [ "$wrong" -eq 0 ]
}

every_answer() { # COMMAND
    answers "$1" crates/window_program/stdin tests/program/*.in
}

# Inputs that end in all places, and long ones.
dribbled_answers() {
    answers dribble_window_program crates/window_program/stdin tests/program/file-ends-at-*.in \
        tests/program/left-over-*.in tests/program/windows-*.in tests/program/thousand-of-32-by-32.in
}

inputs_as_written() {
    mkdir "$files/inputs" && write_inputs "$files/inputs" || return 1
    diff -r -x '*.out' -x make tests/program "$files/inputs" && return 0
    echo 'tests/cases.c writes other cases: tests/program/make makes them anew'
    return 1
}

step 'the cases of the window program are those of tests/cases.c' inputs_as_written
step 'the independent window program is built' build_independent
step 'the independent window program answers every case' every_answer "$built/program"
step 'the window program is built' build_window_program
step 'the window program answers every case' every_answer run_window_program
step 'a pipe that dribbles is built' build_here dribble tests/dribble.c
step 'the window program answers what comes in small pieces' dribbled_answers
