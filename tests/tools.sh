# shellcheck shell=sh disable=SC2034 # the variables are for those that read this
# What tests/run, tests/program/make, bench/run and the Makefile have in common. They read it in the root of the
# repository.

built=target/tests
strict='-Wall -Wextra -pedantic -Werror'

# rt makes both in the folders of their crates.
archive=crates/lutniorad/out/liblutniorad.a
window_program=crates/window_program/out/window_program

# The library and the window program are for x86-64. On another machine a cross compiler builds what the library is
# linked to, and an emulator runs that and the program. The program has no C library in it and takes the compiler's.
if [ "$(uname -m)" = x86_64 ]; then
    cc=gcc cxx=g++ nm=nm emulator=
    to_build=nm:binutils to_run=
else
    libraries=/usr/x86_64-linux-gnu
    cc=x86_64-linux-gnu-gcc cxx=x86_64-linux-gnu-g++ nm=x86_64-linux-gnu-nm emulator="qemu-x86_64 -L $libraries"
    to_build="$cc:gcc-x86-64-linux-gnu,libc6-dev-amd64-cross $nm:binutils-x86-64-linux-gnu"
    to_run="qemu-x86_64:qemu-user $libraries/lib/ld-linux-x86-64.so.2:libc6-amd64-cross"
fi

# Installs what is missing of COMMAND:PACKAGE[,PACKAGE]...
need() {
    missing=
    for pair in "$@"; do
        command -v "${pair%%:*}" >/dev/null || missing="$missing $(echo "${pair#*:}" | tr , ' ')"
    done
    [ -n "$missing" ] || return 0
    as_root=
    if [ "$(id -u)" != 0 ]; then as_root=sudo; fi
    # shellcheck disable=SC2086 # a list of packages; and no word where root runs this
    said=$({ $as_root apt-get update; $as_root env DEBIAN_FRONTEND=noninteractive apt-get install -y $missing; } 2>&1) \
        && return 0
    printf '%s\ncannot install%s\n' "$said" "$missing" >&2
    return 1
}

# Runs rt in a crate's folder, and says of each crate when it is proved. All that rt says is in target/rt.out, and shown
# where rt fails. `rt run` runs what it has linked too: where this machine cannot, that is no failure of rt.
proving() { # COMMAND CRATE
    echo "rt $1 in crates/$2 (what is proved already is not proved again)"
    mkdir -p target && echo 1 >target/rt.status || return 1 # stays where rt is killed
    { (cd "crates/$2" && rt "$1" 2>&1); echo $? >target/rt.status; } | tee target/rt.out | while IFS= read -r line; do
        case $line in
        'crate '*': modules '*) crate=${line#crate } crate=${crate%%:*} ;;
        'logic=proved '*) echo "$crate proved" ;;
        esac
    done
    ended=$(cat target/rt.status)
    if [ -n "$emulator" ] && grep -q "^rt: running out/$2;" target/rt.out; then ended=0; fi
    [ "$ended" = 0 ] || cat target/rt.out >&2
    return "$ended"
}

# For this machine, without the library. Of brute force on large windows speed counts.
# shellcheck disable=SC2086 # strict is a list of options
build_here() { # PROGRAM SOURCE...
    program=$1
    shift
    mkdir -p "$built" && rm -f "$built/$program" # so that no older one is run
    gcc -std=c99 -O3 $strict -Wshadow -Wconversion -Iinclude -o "$built/$program" "$@"
}

# Writes the inputs of the window program's cases, NAME.in each.
write_inputs() { # FOLDER
    build_here cases tests/cases.c tests/maps.c tests/reference.c && "$built/cases" "$1"
}

build_independent() {
    build_here program tests/program.c tests/reference.c
}

build_window_program() {
    proving run window_program <crates/window_program/stdin && return 0
    rm -f "$window_program" # so that no older one is run
    return 1
}

run_window_program() {
    # shellcheck disable=SC2086 # a list, with no word where the machine itself runs it
    $emulator "$window_program"
}
