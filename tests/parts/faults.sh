# shellcheck shell=sh
# shellcheck disable=SC2154 # tests/run, which reads this, has the variables
# The window program where its input or output fails, waits or is cut short.

# Before the program's name, what loads the shared object of unsteady calls into it alone.
if [ -n "$emulator" ]; then loading="$emulator -E"; else loading='env'; fi

# shellcheck disable=SC2086 # strict is a list of options
build_unsteady() {
    rm -f "$built/unsteady.so" # so that no older one is loaded
    "$cc" -std=c99 -O2 $strict -Wshadow -Wconversion -shared -fPIC -o "$built/unsteady.so" tests/unsteady.c
}

repeat() { # TIMES COMMAND...
    times=$1
    shift
    while [ "$times" -gt 0 ]; do
        "$@" || return 1
        times=$((times - 1))
    done
}

# The windows of one case over and over: more output than a pipe holds, and answers of more than it takes at once.
make_long() {
    one=tests/program/thousand-openings
    { cat "$one.in" && repeat 29 tail -c 16 "$one.in"; } >"$files/long.in" || return 1
    repeat 30 cat "$one.out" >"$files/long.out"
}

# NAME.in and NAME.out are what is read and what is right to print.
withstood_by() { # CASE NAME COMMAND...
    fault=$1 text=$2
    shift 2
    timeout 20 "$built/faults" "$fault" "$text.in" "$text.out" "$@"
}

withstands() { # CASE NAME
    # shellcheck disable=SC2086 # a list, with no word where the machine itself runs it
    withstood_by "$1" "$2" $emulator "$window_program"
}

withstands_unsteady() { # CASE NAME
    # shellcheck disable=SC2086 # a list
    withstood_by "$1" "$2" $loading "LD_PRELOAD=$root/$built/unsteady.so" "$window_program"
}

step 'what brings faults upon it is built' build_here faults tests/faults.c
step 'what makes its calls unsteady is built' build_unsteady
step 'an input with a long output is made' make_long

step 'the window program says that its output is full' withstands output-full "$files/long"
step 'the window program says that its output is closed' withstands output-closed "$files/long"
step 'the window program says that its input is closed' withstands input-closed "$files/long"
step 'the window program says that its input is a directory' withstands input-directory "$files/long"

step 'the window program says that its reader has left' withstands pipe-broken "$files/long"
step 'the window program says that its reader has left, where it is not told to ignore the signal' \
    withstands pipe-broken-signal "$files/long"
step 'the window program says that a file can grow no longer' withstands file-limited "$files/long"
step 'the window program says so, or ends between lines, by the signal that a file can grow no longer' \
    withstands file-limited-signal "$files/long"

step 'the window program waits for a pipe that is full' withstands slow-pipe "$files/long"
step 'the window program waits for a socket that takes parts' withstands slow-socket tests/program/thousand-openings
step 'the window program waits for input that comes late' withstands late-writer tests/program/windows-every-one

for input in windows-every-one thousand-openings; do
    step "the window program makes interrupted calls again, on $input" \
        withstands_unsteady calls-interrupted "tests/program/$input"
    step "the window program makes calls again where the system does not wait, on $input" \
        withstands_unsteady calls-again "tests/program/$input"
done
step 'the window program says that it has waited in vain' withstands_unsteady calls-in-vain "$files/long"
step 'the window program says that a write failed, and writes no more' withstands_unsteady write-fails "$files/long"
step 'the window program says that a write failed, of bytes left over' \
    withstands_unsteady write-fails tests/program/left-over-3
step 'the window program says that a write failed, of a refused file' \
    withstands_unsteady write-fails tests/program/file-length-0
step 'the window program says that a write failed, of a refused map' \
    withstands_unsteady write-fails tests/program/map-5-end
step 'the window program says that a read failed, and has answered the windows before' \
    withstands_unsteady read-fails tests/program/windows-300
