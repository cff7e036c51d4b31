# shellcheck shell=sh
# shellcheck disable=SC2154 # tests/run, which reads this, has the variables
# What make installs, packs and removes, and programs that use what was installed.

# The C++ compiler of this machine is there already, and only a cross compiler may be missing.
need "$cxx:g++-x86-64-linux-gnu" readelf:binutils pkg-config:pkg-config groff:groff-base man:man-db git:git || exit 2
unset DESTDIR PREFIX INCLUDEDIR LIBDIR PKGCONFIGDIR MANDIR

# By the header's three numbers; install.mk goes by the text.
version=$(echo LUTNIORAD_VERSION_MAJOR.LUTNIORAD_VERSION_MINOR.LUTNIORAD_VERSION_PATCH \
    | "$cc" -E -P -include include/lutniorad.h - | tail -n 1 | tr -d ' ')
soname=liblutniorad.so.${version%%.*}
packed=target/dist/lutniorad-$version.tar.gz
prefix=$files/prefix
shared=$prefix/lib/liblutniorad.so.$version
manual=$prefix/share/man/man3/lutniorad.3

# Tools that fail, before all others on the PATH: nothing can be built.
mkdir "$files/none" || exit 2
for tool in rt gcc cc g++ "$cc" awk python3; do
    printf '#!/bin/sh\necho "%s was called" >&2\nexit 1\n' "$tool" >"$files/none/$tool"
    chmod +x "$files/none/$tool"
done

# A toolchain that proves two crates, or fails.
mkdir "$files/rt" || exit 2
cat >"$files/rt/rt" <<'END'
#!/bin/sh
proved() { # CRATE FUNCTION
    printf '%s\n' "rt: chose --jobs 2 for $1" "fn $1::$2: proved" 'library lists: modules loaded=18 checked=0' \
        "crate $1: modules loaded=0 checked=33" 'axioms std: none reached of the 2 declared' 'logic=proved functions=1'
}
[ "$*" = lib ] && [ "${PWD##*/}" = lutniorad ] || exit 2
proved key read_key
proved map check
exit "$RT_ENDS"
END
chmod +x "$files/rt/rt"

has_files() { # FOLDER FILE...: these, and no other
    folder=$1
    shift
    printf './%s\n' "$@" | sort >"$files/wanted"
    (cd "$folder" && find . ! -type d) | sort >"$files/found"
    diff "$files/wanted" "$files/found"
}

has_installed() { # FOLDER INCLUDEDIR LIBDIR PKGCONFIGDIR MANDIR, the latter four in the folder
    has_files "$1" "$2/lutniorad.h" "$3/liblutniorad.a" "$3/liblutniorad.so" "$3/$soname" \
        "$3/liblutniorad.so.$version" "$4/lutniorad.pc" "$5/man3/lutniorad.3"
}

install_below_prefix() {
    (umask 077 && make -s install "PREFIX=$prefix") >"$files/said" || return 1
    has_installed "$prefix" include lib lib/pkgconfig share/man
}

# Whatever the umask was.
readable_by_all() {
    find "$prefix" ! -type l ! -perm -444 >"$files/found"
    find "$prefix" -type d ! -perm -555 >>"$files/found"
    cat "$files/found"
    [ ! -s "$files/found" ] && [ -x "$shared" ]
}

install_below_destdir() {
    mkdir -p "$files/root/usr/local/lib" && chmod 2770 "$files/root/usr/local/lib" || return 1
    make -s install "DESTDIR=$files/root" >"$files/said" || return 1
    has_installed "$files/root" usr/local/include usr/local/lib usr/local/lib/pkgconfig usr/local/share/man || return 1
    ! grep -r -l -F "$files" "$files/root"
}

keeps_mode() { # FOLDER MODE
    [ "$(stat -c %a "$1")" = "$2" ]
}

install_elsewhere() {
    make -s install "DESTDIR=$files/by choice" PREFIX=/none INCLUDEDIR=/i LIBDIR=/l PKGCONFIGDIR=/p MANDIR=/m \
        >"$files/said" || return 1
    has_installed "$files/by choice" i l p m || return 1
    said=$(PKG_CONFIG_PATH="$files/by choice/p" pkg-config --cflags --libs lutniorad | tr -s ' ')
    [ "${said% }" = '-I/i -L/l -llutniorad' ]
}

# Each of these takes the folder of an installation first.

of_package() { # PREFIX OPTION...
    of=$1
    shift
    PKG_CONFIG_PATH=$of/lib/pkgconfig pkg-config "$@" lutniorad
}

says_version() { # PREFIX
    [ "$(of_package "$1" --modversion)" = "$version" ]
}

# shellcheck disable=SC2046,SC2086 # strict and what pkg-config says are lists of options
build_by_package() { # PREFIX SOURCE COMPILER LANGUAGE STANDARD [--static]
    of=$1 source=$2 compiler=$3 language=$4 standard=$5
    shift 5
    rm -f "$built/installed" # so that no older one is run
    of_package "$of" --cflags --libs "$@" >"$files/options" || return 1
    "$compiler" -x "$language" -std="$standard" $strict ${1:+-static} -o "$built/installed" "$source" \
        $(cat "$files/options")
}

named() { # TAG FILE: what the file names under this tag, for the loader
    readelf -d "$2" | sed -n "s/.*($1).*\[\(.*\)\]/\1/p"
}

says_sound() { # PREFIX
    said=$(LD_LIBRARY_PATH=$1/lib && export LD_LIBRARY_PATH && run installed tests/program/windows-none.in)
    [ "$said" = 'sound: m 2, 7 records' ] && return 0
    echo "it said '$said'"
    return 1
}

uses_shared() { # PREFIX SOURCE COMPILER LANGUAGE STANDARD
    build_by_package "$@" && named NEEDED "$built/installed" | grep -q -x -F "$soname" && says_sound "$1"
}

uses_archive() { # PREFIX SOURCE COMPILER LANGUAGE STANDARD
    build_by_package "$@" --static && [ -z "$(named NEEDED "$built/installed")" ] && says_sound "$1"
}

# Of the shared library.

links_lead_to_it() {
    [ "$(readlink "$prefix/lib/liblutniorad.so")" = "$soname" ] \
        && [ "$(readlink "$prefix/lib/$soname")" = "liblutniorad.so.$version" ]
}

has_soname() {
    [ "$(named SONAME "$shared")" = "$soname" ]
}

declared() {
    sed -n '/^static/d; s/^[a-z].*[ *]\(lutniorad_[a-z_]*\)(.*/\1/p' include/lutniorad.h | sort
}

exports_declared() {
    declared >"$files/wanted"
    "$nm" -D -P --defined-only "$shared" | sed 's/ .*//' | sort >"$files/found"
    [ -s "$files/wanted" ] && diff "$files/wanted" "$files/found"
}

stands_on_c_library() {
    printf '%s\n' memcpy memset >"$files/wanted"
    "$nm" -D -P --undefined-only "$shared" | sed 's/[@ ].*//' | sort >"$files/found"
    diff "$files/wanted" "$files/found" && [ "$(named NEEDED "$shared")" = libc.so.6 ]
}

is_bound_at_once() {
    readelf -d "$shared" | grep -q 'FLAGS_1.* NOW' && readelf -l -W "$shared" | grep -q 'GNU_RELRO'
}

runs_only_code() {
    readelf -l -W "$shared" >"$files/found" && grep -q 'GNU_STACK.* RW ' "$files/found" \
        && ! grep -q ' RWE ' "$files/found" && ! readelf -d "$shared" | grep TEXTREL
}

# Of the manual page.

without_warning() { # COMMAND...
    "$@" >"$files/found" 2>"$files/errors" || return 1
    cat "$files/errors"
    [ ! -s "$files/errors" ]
}

# As on a screen of 80 columns, whatever this runs on.
shown() {
    LC_ALL=C.UTF-8 MANWIDTH=80 MAN_KEEP_FORMATTING='' man --warnings=all -l "$manual"
}

has_each_call() {
    declared >"$files/wanted"
    shown | awk '/^[^ ]/ { section = $0 } section == "CALLS" && /^   [^ ]/ { print $1 }' | sort | diff "$files/wanted" -
}

# But for the names that only the header itself uses.
has_every_name() {
    grep -o 'LUTNIORAD_[A-Z_]*' include/lutniorad.h | sort -u \
        | grep -v -x -e LUTNIORAD_H -e LUTNIORAD_REFUSALS -e LUTNIORAD_NAMED -e LUTNIORAD_SAID >"$files/wanted"
    shown | grep -o 'LUTNIORAD_[A-Z_]*' | sort -u | diff "$files/wanted" -
}

fits_screen() {
    shown | LC_ALL=C.UTF-8 sed 's/[^ -~]/?/g' >"$files/found"
    [ -s "$files/found" ] && ! grep '.\{81\}' "$files/found"
}

refuses_header_with() { # LINE
    { cat include/lutniorad.h; printf '%s\n' "$1"; } >"$files/header.h"
    ! awk -f docs/manual.awk "$files/header.h" >"$files/found" 2>&1 && grep -q 'header.h:' "$files/found"
}

leaves_others_alone() {
    set -- include/lutniorad.hpp lib/liblutniorad.so.0 lib/pkgconfig/other.pc share/man/man3/lutniorad_check.3
    for stranger in "$@"; do
        echo mine >"$prefix/$stranger" || return 1
    done
    make -s uninstall "PREFIX=$prefix" >"$files/said" && has_files "$prefix" "$@"
}

# The tree as it stands, in another folder and with the archive.
copy_tree() {
    mkdir "$files/copy" || return 1
    tar -cf "$files/tree.tar" --exclude=./target --exclude=./.git --exclude='./crates/*/out' . || return 1
    tar -xf "$files/tree.tar" -C "$files/copy" && mkdir "$files/copy/crates/lutniorad/out" || return 1
    cp "$archive" "$files/copy/$archive"
}

# In another folder, by another umask and in another second.
same_tarball_twice() {
    rm -f "$packed"
    make -s dist >"$files/said" && sleep 1 && (umask 027 && make -s -C "$files/copy" dist) >"$files/said" || return 1
    cmp "$packed" "$files/copy/$packed"
}

install_from_tarball() {
    mkdir "$files/unpacked" && tar -xzf "$packed" -C "$files/unpacked" || return 1
    [ "$(ls "$files/unpacked")" = "lutniorad-$version" ] || return 1
    env "PATH=$files/none:$PATH" make -s -C "$files/unpacked/lutniorad-$version" install "PREFIX=$files/handed-on" \
        >"$files/said" || return 1
    has_installed "$files/handed-on" include lib lib/pkgconfig share/man
}

install_without_toolchain() {
    rm -rf "$files/copy/target/dist"
    env "PATH=$files/rt:$PATH" RT_ENDS=1 make -s -C "$files/copy" install "DESTDIR=$files/again" >"$files/said"
}

uninstall_from_tarball() {
    make -s -C "$files/unpacked/lutniorad-$version" uninstall "PREFIX=$files/handed-on" >"$files/said" || return 1
    [ -z "$(find "$files/handed-on" ! -type d)" ]
}

make_lib_by() { # STATUS: with a toolchain that ends so
    env "PATH=$files/rt:$PATH" RT_ENDS="$1" make -s -C "$files/copy" lib >"$files/found" 2>"$files/errors"
}

lib_says_progress() {
    printf '%s\n' 'key proved' 'map proved' "$archive is the library, proved" >"$files/wanted"
    make_lib_by 0 && sed 1d "$files/found" | diff "$files/wanted" - # without the line that says what is done
}

lib_shows_failure() {
    make_lib_by 3 && return 1
    grep -q 'fn map::check: proved' "$files/errors" && ! grep -q "$archive is" "$files/found"
}

clean_leaves_tree() {
    cd "$files/copy" || return 1
    git init -q && git add -A && git ls-files >"$files/wanted" && [ -d target/dist ] && make -s clean >"$files/said" \
        && [ ! -e target ] && git ls-files -o -c >"$files/found" && diff "$files/wanted" "$files/found" \
        && git diff --exit-code --stat
    status=$?
    cd "$root" && return "$status"
}

step 'make install puts these files below PREFIX, and no other' install_below_prefix
step 'anybody can read what was installed' readable_by_all
step 'DESTDIR stands before all, and in no file' install_below_destdir
step 'a folder that was there keeps its mode' keeps_mode "$files/root/usr/local/lib" 2770
step 'each folder can be chosen' install_elsewhere
step 'pkg-config says the version of the header' says_version "$prefix"

step 'a C99 program uses the shared library' uses_shared "$prefix" examples/check.c "$cc" c c99
step 'a C99 program uses the archive' uses_archive "$prefix" examples/check.c "$cc" c c99
step 'a C++17 program uses the shared library' uses_shared "$prefix" examples/check.c "$cxx" c++ c++17
step 'a C++17 program uses the archive' uses_archive "$prefix" examples/check.c "$cxx" c++ c++17

step 'two links lead to the shared library' links_lead_to_it
step 'the shared library has its soname' has_soname
step 'the shared library exports the calls of the header, and nothing else' exports_declared
step 'the shared library needs memcpy and memset, and nothing else' stands_on_c_library
step 'the shared library is bound when it is loaded' is_bound_at_once
step 'the shared library is position independent, and its stack is no code' runs_only_code

step 'groff has no warning of the manual page' without_warning groff -ww -man -z "$manual"
step 'man has no warning of the manual page' without_warning shown
step 'the manual page has each call' has_each_call
step 'the manual page has every name of the header' has_every_name
step 'the manual page fits a screen' fits_screen
step 'no manual page is made where the header is not understood' refuses_header_with 'int lutniorad_unknown;'

step 'make uninstall removes what was installed, and nothing of others' leaves_others_alone

step 'the tree is copied' copy_tree
step 'make dist gives the same bytes each time' same_tarball_twice
step 'make install needs no toolchain where the archive is built' install_without_toolchain
step 'the tarball is installed without toolchain and compiler' install_from_tarball
step 'an example of the tarball uses the shared library' \
    uses_shared "$files/handed-on" "$files/unpacked/lutniorad-$version/examples/check.c" "$cc" c c99
step 'an example of the tarball uses the archive' \
    uses_archive "$files/handed-on" "$files/unpacked/lutniorad-$version/examples/check.c" "$cc" c c99
step 'the tarball is uninstalled' uninstall_from_tarball

step 'make lib says which crates are proved, and where the archive is' lib_says_progress
step 'make lib shows all where rt fails, and fails' lib_shows_failure
step 'make clean removes what was made, and nothing else' clean_leaves_tree
