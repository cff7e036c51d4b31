# shellcheck shell=sh
# shellcheck disable=SC2154 # tests/run, which reads this, has the variables
# The examples, on house files of the reference map and a few like it, and on examples/lake.map.

bytes() { # NUMBER...
    for byte in "$@"; do
        printf '%b' "\\0$(printf '%o' "$byte")"
    done
}

house_file() { # FIRST-KEY CLASS...: the reference map, with this as its first key and these classes
    bytes 55 0 0 0 2 0 0 0 7 0 0 0 20 0 0 0 48 0 0 0
    bytes "$1" 0 0 0 11 0 0 0 12 0 0 0 13 0 0 0 14 0 0 0 15 0 0 0 20 0 0 0
    shift
    bytes "$@"
}

one_record() { # M KEY: a map of one record
    bytes 25 0 0 0 "$1" 0 0 0 1 0 0 0 20 0 0 0 24 0 0 0 "$2" 0 0 0 1
}

longest() { # ZEROS: the header of a file of 65,536 records, and so many zeros
    bytes 20 0 5 0 8 0 0 0 0 0 1 0 20 0 0 0 20 0 4 0
    head -c "$1" /dev/zero
}

lake_from() { # BYTE...: the lake with these bytes for its first key
    dd if=examples/lake.map bs=1 count=20 2>/dev/null
    bytes "$@"
    dd if=examples/lake.map bs=1 skip=24 2>/dev/null
}

# shellcheck disable=SC2086 # strict is a list of options
examples_as_cpp() {
    for source in examples/*.c; do
        g++ -x c++ -std=c++17 $strict -Iinclude -fsyntax-only "$source" || return 1
    done
}

# Runs where the house files are, so that these are named as here.
example_says() { # LINES ERRORS STATUS PROGRAM ARGUMENT...
    lines=$1 errors=$2 wanted=$3 example=$4
    shift 4
    said=$(cd "$files" && run "$example" "$@" 2>errors)
    status=$?
    said_errors=$(cat "$files/errors")
    [ "$said" = "$lines" ] && [ "$said_errors" = "$errors" ] && [ "$status" = "$wanted" ] && return 0
    echo "$example $* said '$said' and '$said_errors' with status $status,"
    echo "and not '$lines' and '$errors' with status $wanted"
    return 1
}

# On a full disk, and where standard output is closed.
sees_failed_output() { # PROGRAM ARGUMENT...
    (cd "$files" && run "$@" >/dev/full 2>errors)
    statuses=$?
    (cd "$files" && run "$@" >&- 2>>errors)
    statuses="$statuses $?"
    said=$(cat "$files/errors")
    [ "$statuses" = '2 2' ] && [ "$said" = "$1: cannot write standard output
$1: cannot write standard output" ] && return 0
    echo "$* said '$said' with statuses $statuses where it cannot write"
    return 1
}

bad_layout='refused 9 at 0: the layout of the file is wrong'
no_records='refused 2 at 0: keys and classes differ in number, go over 65,536, or a complete map has none'
bad_key='refused 3 at 0: the key of a record names no block'
overlap='refused 4 at 1: a record starts before the last one ended'
gap='refused 5 at 0: a record starts after the last one ended, or the list ends early'
bad_window='refused 6 at 0: the window is empty or not inside the picture'
other_m='refused 15 at 0: the m of the map is not that of the table or of the baseline'

step 'the examples are C++17' examples_as_cpp

drawn_as_it_is() {
    run lake >"$files/drawn" && cmp "$files/drawn" examples/lake.map
}

step 'the example lake is built' build lake examples/lake.c
step 'lake writes examples/lake.map' drawn_as_it_is
step 'lake sees that it cannot write' sees_failed_output lake

house_file 5 1 2 2 3 1 1 2 >"$files/sound"
house_file 1 1 2 2 3 1 1 2 >"$files/unsound"
house_file 5 1 2 255 2 1 1 2 >"$files/partly"
one_record 0 0 >"$files/pixel"
dd if="$files/sound" of="$files/short" bs=1 count=54 2>/dev/null
longest 327680 >"$files/longest"
longest 327681 >"$files/longer"
mkdir "$files/folder"
usage='usage: check FILE, a house file'
step 'the example check is built' build check examples/check.c
step 'check takes a sound map' example_says 'sound: m 2, 7 records' '' 0 check sound
step 'check refuses a file cut short' example_says "$bad_layout" '' 1 check short
step 'check refuses an unsound map' example_says "$bad_key" '' 1 check unsound
step 'check reads the longest file' example_says "$overlap" '' 1 check longest
step 'check refuses a longer one that begins like it' example_says "$bad_layout" '' 1 check longer
step 'check sees that a file is missing' example_says '' 'missing: cannot be opened' 2 check missing
step 'check sees that a file cannot be read' example_says '' 'folder: cannot be read' 2 check folder
step 'check sees that no file is named' example_says '' "$usage" 2 check
step 'check sees that it cannot write' sees_failed_output check sound
step 'check sees that it cannot write a refusal' sees_failed_output check short

usage='usage: scum FILE R0 C0 H W CLASS, with a house file'
step 'the example scum is built' build scum examples/scum.c
step 'scum counts a class' example_says '4 of 9 pixels, 444 per mille' '' 0 scum sound 0 1 3 3 1
step 'scum counts a class that is not there' example_says '0 of 9 pixels, 0 per mille' '' 0 scum sound 0 1 3 3 255
step 'scum counts a class that is all there is' example_says '2 of 2 pixels, 1000 per mille' '' 0 scum sound 2 0 2 1 1
step 'scum says how many were not seen' \
    example_says '4 of 9 pixels, 444 per mille, 1 not seen' '' 0 scum partly 0 1 3 3 1
step 'scum counts what was not seen' example_says '1 of 9 pixels, 111 per mille' '' 0 scum partly 0 1 3 3 255
step 'scum refuses a window that sticks out' example_says "$bad_window" '' 1 scum sound 2 0 3 1 1
step 'scum refuses a window wider than its border' example_says "$bad_window" '' 1 scum sound 0 0 1 65535 1
step 'scum refuses a file cut short' example_says "$bad_layout" '' 1 scum short 0 1 3 3 1
step 'scum refuses an unsound map' example_says "$bad_key" '' 1 scum unsound 0 1 3 3 1
step 'scum sees that a file is missing' example_says '' 'missing: cannot be opened' 2 scum missing 0 1 3 3 1
step 'scum sees that a file cannot be read' example_says '' 'folder: cannot be read' 2 scum folder 0 1 3 3 1
step 'scum sees that a number is too great' example_says '' "$usage" 2 scum sound 65536 1 3 3 1
step 'scum sees that a class is too great' example_says '' "$usage" 2 scum sound 0 1 3 3 256
step 'scum sees that a number is none' example_says '' "$usage" 2 scum sound 0 -1 3 3 1
step 'scum sees that the class is missing' example_says '' "$usage" 2 scum sound 0 1 3 3
step 'scum sees that it cannot write' sees_failed_output scum sound 0 1 3 3 1
step 'scum sees that it cannot write a refusal' sees_failed_output scum short 0 1 3 3 1

usage='usage: clear FILE CLASS, with a house file'
step 'the example clear is built' build clear examples/clear.c
step 'clear says yes' example_says yes '' 0 clear sound 3
step 'clear says no' example_says no '' 0 clear sound 4
step 'clear says that it cannot tell' example_says "can't tell" '' 0 clear partly 3
step 'clear says yes where not all was seen' example_says yes '' 0 clear partly 2
step 'clear says no where it is asked for what was not seen' example_says no '' 0 clear sound 255
step 'clear says yes where it is asked for what was not seen' example_says yes '' 0 clear partly 255
step 'clear refuses a file cut short' example_says "$bad_layout" '' 1 clear short 3
step 'clear refuses an unsound map' example_says "$bad_key" '' 1 clear unsound 3
step 'clear sees that a file is missing' example_says '' 'missing: cannot be opened' 2 clear missing 3
step 'clear sees that a file cannot be read' example_says '' 'folder: cannot be read' 2 clear folder 3
step 'clear sees that a class is too great' example_says '' "$usage" 2 clear sound 256
step 'clear sees that a class is none' example_says '' "$usage" 2 clear sound -1
step 'clear sees that the class is missing' example_says '' "$usage" 2 clear sound
step 'clear sees that it cannot write' sees_failed_output clear sound 3
step 'clear sees that it cannot write a refusal' sees_failed_output clear short 3

usage='usage: tiles FILE TILE R0 C0 H W CLASS, with a house file'
quarters='row 0, column 0, side 2
row 2, column 0, side 2'
pixels='row 0, column 1, side 1
row 1, column 1, side 1'
bad_tile='refused 17 at 0: the tile is larger than the picture'
step 'the example tiles is built' build tiles examples/tiles.c
step 'tiles says squares' example_says "$quarters" '' 0 tiles sound 2 0 0 4 2 1
step 'tiles says none larger than a tile' example_says "$pixels" '' 0 tiles sound 0 0 1 2 1 1
step 'tiles says a picture' example_says 'row 0, column 0, side 1' '' 0 tiles pixel 0 0 0 1 1 1
step 'tiles says nothing of a class that is not there' example_says '' '' 0 tiles sound 2 0 0 4 2 4
step 'tiles refuses a tile larger than the picture' example_says "$bad_tile" '' 1 tiles sound 3 0 0 4 2 1
step 'tiles refuses a window that sticks out' example_says "$bad_window" '' 1 tiles sound 2 2 0 3 1 1
step 'tiles refuses a file cut short' example_says "$bad_layout" '' 1 tiles short 2 0 0 4 2 1
step 'tiles refuses an unsound map' example_says "$bad_key" '' 1 tiles unsound 2 0 0 4 2 1
step 'tiles sees that a file is missing' example_says '' 'missing: cannot be opened' 2 tiles missing 2 0 0 4 2 1
step 'tiles sees that a tile is none' example_says '' "$usage" 2 tiles sound -1 0 0 4 2 1
step 'tiles sees that a number is too great' example_says '' "$usage" 2 tiles sound 2 65536 0 4 2 1
step 'tiles sees that the class is missing' example_says '' "$usage" 2 tiles sound 2 0 0 4 2
step 'tiles sees that it cannot write' sees_failed_output tiles sound 2 0 0 4 2 1
step 'tiles sees that it cannot write a refusal' sees_failed_output tiles short 2 0 0 4 2 1

usage='usage: many FILE N, with a house file and N up to 16'
grid='row 0, column 0, 2 by 2: openings 1, records 1, pixels 4
row 0, column 2, 2 by 2: openings 1, records 4, pixels 4
row 2, column 0, 2 by 2: openings 1, records 1, pixels 4
row 2, column 2, 2 by 2: openings 1, records 1, pixels 4'
of_pixel="row 0, column 0, 0 by 0: $bad_window
row 0, column 0, 0 by 1: $bad_window
row 0, column 0, 1 by 0: $bad_window
row 0, column 0, 1 by 1: openings 1, records 1, pixels 1"

# In as many windows as it is asked for, up to 16 by 16, which is all that a call takes.
covers_lake() {
    for along in 1 3 7 16; do
        run many examples/lake.map "$along" >"$files/grid" || return 1
        counted=$(awk '{ pixels += $NF } END { print NR, pixels }' "$files/grid")
        [ "$counted" = "$((along * along)) 1024" ] && continue
        echo "many examples/lake.map $along has lines and pixels: $counted"
        return 1
    done
}

step 'the example many is built' build many examples/many.c
step 'many says each window of a grid' example_says "$grid" '' 0 many sound 2
step 'many says which windows are refused' example_says "$of_pixel" '' 0 many pixel 2
step 'many says nothing of no window' example_says '' '' 0 many sound 0
step 'many has each pixel of the picture in one window' covers_lake
step 'many refuses a file cut short' example_says "$bad_layout" '' 1 many short 2
step 'many refuses an unsound map' example_says "$bad_key" '' 1 many unsound 2
step 'many sees that a file is missing' example_says '' 'missing: cannot be opened' 2 many missing 2
step 'many sees that there would be too many windows' example_says '' "$usage" 2 many sound 17
step 'many sees that a number is none' example_says '' "$usage" 2 many sound -1
step 'many sees that the number is missing' example_says '' "$usage" 2 many sound
step 'many sees that it cannot write' sees_failed_output many sound 2
step 'many sees that it cannot write a refusal' sees_failed_output many short 2

usage='usage: why FILE R0 C0 H W record INDEX, or block KEY, with a house file'
no_record='refused 19 at 0: the map has no record of this index'
not_maximal='refused 22 at 0: the key is that of no maximal block of the window'
in_first='block 9 is skipped: it lies in record 0, which opening 0 handed out'
in_last='block 22 is skipped: it lies in record 6, which opening 3 handed out'
step 'the example why is built' build why examples/why.c
step 'why says which opening hands out a record' \
    example_says 'record 5 is handed out by opening 2' '' 0 why sound 0 1 3 3 record 5
step 'why says which opening hands out one of many records' \
    example_says 'record 3 is handed out by opening 1' '' 0 why sound 0 1 3 3 record 3
step 'why says that a record lies north' \
    example_says 'record 0 lies north of the window' '' 0 why sound 2 2 1 1 record 0
step 'why says that a record lies south' \
    example_says 'record 5 lies south of the window' '' 0 why sound 0 0 1 1 record 5
step 'why says that a record lies west' \
    example_says 'record 5 lies west of the window' '' 0 why sound 2 2 1 1 record 5
step 'why says that a record lies east' \
    example_says 'record 1 lies east of the window' '' 0 why sound 0 0 1 1 record 1
step 'why says north of a record that lies east too' \
    example_says 'record 1 lies north of the window' '' 0 why sound 2 0 1 1 record 1
step 'why says as which opening a block is opened' \
    example_says 'block 10 is opened, as opening 1' '' 0 why sound 0 1 3 3 block 10
step 'why says for which record a block is skipped' example_says "$in_first" '' 0 why sound 0 1 3 3 block 9
step 'why says of the last block for which record it is skipped' \
    example_says "$in_last" '' 0 why sound 0 1 3 3 block 22
step 'why says of a picture that it is opened' \
    example_says 'block 0 is opened, as opening 0' '' 0 why pixel 0 0 1 1 block 0
step 'why refuses an index that is none' example_says "$no_record" '' 1 why sound 0 1 3 3 record 7
step 'why refuses the greatest index' example_says "$no_record" '' 1 why sound 0 1 3 3 record 4294967295
step 'why refuses a block that is not maximal' example_says "$not_maximal" '' 1 why sound 0 1 3 3 block 11
step 'why refuses a block that leaves the window' example_says "$not_maximal" '' 1 why sound 0 1 3 3 block 5
step 'why refuses a key that names no block' example_says "$not_maximal" '' 1 why sound 0 1 3 3 block 1
step 'why refuses a window that sticks out, asked for a record' \
    example_says "$bad_window" '' 1 why sound 2 0 3 1 record 7
step 'why refuses a window that sticks out, asked for a block' \
    example_says "$bad_window" '' 1 why sound 2 0 3 1 block 1
step 'why refuses a file cut short' example_says "$bad_layout" '' 1 why short 0 1 3 3 record 5
step 'why refuses an unsound map, asked for a record' example_says "$bad_key" '' 1 why unsound 0 1 3 3 record 5
step 'why refuses an unsound map, asked for a block' example_says "$bad_key" '' 1 why unsound 0 1 3 3 block 10
step 'why sees that a file is missing' example_says '' 'missing: cannot be opened' 2 why missing 0 1 3 3 record 5
step 'why sees that a number is too great' example_says '' "$usage" 2 why sound 0 1 3 3 record 4294967296
step 'why sees that a number is none' example_says '' "$usage" 2 why sound 0 1 3 3 block -1
step 'why sees that the window is none' example_says '' "$usage" 2 why sound 0 1 3 w record 5
step 'why sees that it is asked for neither' example_says '' "$usage" 2 why sound 0 1 3 3 opening 5
step 'why sees that the number is missing' example_says '' "$usage" 2 why sound 0 1 3 3 record
step 'why sees that it cannot write' sees_failed_output why sound 0 1 3 3 record 5
step 'why sees that it cannot write a refusal' sees_failed_output why short 0 1 3 3 record 5

one_record 9 0 >"$files/large"
usage='usage: planner FILE R0 C0 H W R0 C0 H W, with a house file'
columns='class     first    second     union    shared'
side_by_side="first: row 0, column 1, 3 by 1, pixels 3
second: row 0, column 2, 3 by 2, pixels 6
union: row 0, column 1, 3 by 3, pixels 9
shared: nothing
$columns
    1         3         1         4         0
    2         0         4         4         0
    3         0         1         1         0"
above="first: row 2, column 2, 2 by 2, pixels 4
second: row 0, column 2, 2 by 2, pixels 4
union: row 0, column 2, 4 by 2, pixels 8
shared: nothing
$columns
    1         0         1         1         0
    2         4         2         6         0
    3         0         1         1         0"
overlapping="first: row 0, column 1, 3 by 2, pixels 6
second: row 0, column 2, 3 by 2, pixels 6
union: row 0, column 1, 3 by 3, pixels 9
shared: row 0, column 2, 3 by 1, pixels 3
$columns
    1         3         1         4         0
    2         2         4         4         2
    3         1         1         1         1"
overlapping_above="first: row 0, column 0, 3 by 3, pixels 9
second: row 1, column 0, 3 by 3, pixels 9
union: row 0, column 0, 4 by 3, pixels 12
shared: row 1, column 0, 2 by 3, pixels 6
$columns
    1         6         6         8         4
    2         2         2         3         1
    3         1         1         1         1"
inside="first: row 0, column 0, 4 by 4, pixels 16
second: row 1, column 1, 2 by 2, pixels 4
union: row 0, column 0, 4 by 4, pixels 16
shared: row 1, column 1, 2 by 2, pixels 4
$columns
    1         9         2         9         2
    2         6         1         6         1
    3         1         1         1         1"
around="first: row 1, column 1, 2 by 2, pixels 4
second: row 0, column 0, 4 by 4, pixels 16
union: row 0, column 0, 4 by 4, pixels 16
shared: row 1, column 1, 2 by 2, pixels 4
$columns
    1         2         9         9         2
    2         1         6         6         1
    3         1         1         1         1"
same="first: row 2, column 0, 2 by 1, pixels 2
second: row 2, column 0, 2 by 1, pixels 2
union: row 2, column 0, 2 by 1, pixels 2
shared: row 2, column 0, 2 by 1, pixels 2
$columns
    1         2         2         2         2"
one_not_seen="first: row 0, column 3, 1 by 1, pixels 1
second: row 0, column 2, 1 by 1, pixels 1
union: row 0, column 2, 1 by 2, pixels 2
shared: nothing
$columns
    2         0         1         1         0
  255         1         0         1         0"
one_pixel="first: row 0, column 0, 1 by 1, pixels 1
second: row 0, column 0, 1 by 1, pixels 1
union: row 0, column 0, 1 by 1, pixels 1
shared: row 0, column 0, 1 by 1, pixels 1
$columns
    1         1         1         1         1"
no_rectangle='the union of the two windows is no rectangle'

said_of() { # WINDOW COLUMN FILE: the window, and the pixels of each class in it
    awk -v window="$1:" -v column="$2" '$1 == window { sub(window " ", ""); print } /^ / { print $1, $column }' "$3"
}

# The union, given twice, is asked of the library itself.
union_is_as_reported() { # R0 C0 H W R0 C0 H W
    run planner examples/lake.map "$@" >"$files/together" || return 1
    union=$(sed -n 's/^union: row \(.*\), column \(.*\), \(.*\) by \(.*\), pixels .*/\1 \2 \3 \4/p' "$files/together")
    # shellcheck disable=SC2086 # four numbers
    run planner examples/lake.map $union $union >"$files/alone" || return 1
    added=$(said_of union 4 "$files/together") reported=$(said_of first 2 "$files/alone")
    [ -n "$added" ] && [ "$added" = "$reported" ] && return 0
    echo "planner examples/lake.map $* said of the union '$added', and the library '$reported'"
    return 1
}

unions_are_as_reported() {
    for both in '0 0 32 13 0 13 32 19' '14 4 5 14 6 4 8 14' '12 8 10 16 12 15 10 17' '11 2 21 9 3 2 17 9' \
        '5 6 7 8 0 0 32 32' '12 8 10 16 14 8 3 9' '6 4 8 14 6 4 8 14' '31 31 1 1 31 30 1 1'; do
        # shellcheck disable=SC2086 # eight numbers
        union_is_as_reported $both || return 1
    done
}

step 'the example planner is built' build planner examples/planner.c
step 'planner adds windows side by side' example_says "$side_by_side" '' 0 planner sound 0 1 3 1 0 2 3 2
step 'planner adds windows one above the other' example_says "$above" '' 0 planner sound 2 2 2 2 0 2 2 2
step 'planner subtracts what windows side by side share' \
    example_says "$overlapping" '' 0 planner sound 0 1 3 2 0 2 3 2
step 'planner subtracts what windows one above the other share' \
    example_says "$overlapping_above" '' 0 planner sound 0 0 3 3 1 0 3 3
step 'planner takes a window inside the first' example_says "$inside" '' 0 planner sound 0 0 4 4 1 1 2 2
step 'planner takes a window around the first' example_says "$around" '' 0 planner sound 1 1 2 2 0 0 4 4
step 'planner takes the same window twice' example_says "$same" '' 0 planner sound 2 0 2 1 2 0 2 1
step 'planner counts what was not seen' example_says "$one_not_seen" '' 0 planner partly 0 3 1 1 0 2 1 1
step 'planner takes a picture twice' example_says "$one_pixel" '' 0 planner pixel 0 0 1 1 0 0 1 1
step 'planner says of a union what the library says' unions_are_as_reported
step 'planner says that windows overlap at a corner' \
    example_says "$no_rectangle" '' 1 planner sound 0 0 3 3 1 1 3 3
step 'planner says that windows cross' example_says "$no_rectangle" '' 1 planner sound 1 0 2 4 0 1 4 2
step 'planner says that a window sticks out of the side of another' \
    example_says "$no_rectangle" '' 1 planner sound 0 0 4 2 1 1 2 3
step 'planner says that there are columns between windows' \
    example_says "$no_rectangle" '' 1 planner sound 0 0 4 1 0 2 4 2
step 'planner says that there are rows between windows' \
    example_says "$no_rectangle" '' 1 planner sound 3 0 1 4 0 0 2 4
step 'planner says that windows touch by a part of both sides' \
    example_says "$no_rectangle" '' 1 planner sound 0 0 2 2 1 2 2 2
step 'planner says that windows touch by a part of one side' \
    example_says "$no_rectangle" '' 1 planner sound 0 0 4 2 0 2 2 2
step 'planner says that windows touch at a corner' \
    example_says "$no_rectangle" '' 1 planner sound 0 0 2 2 2 2 2 2
# If what these share were -1 by -1 in 16 bits, the sizes would add up.
step 'planner says that there are rows and columns between windows' \
    example_says "$no_rectangle" '' 1 planner large 0 0 255 255 256 256 255 255
step 'planner refuses a first window that sticks out' \
    example_says "first: $bad_window" '' 1 planner sound 2 0 3 1 0 0 1 1
step 'planner refuses a second window that sticks out' \
    example_says "second: $bad_window" '' 1 planner sound 0 0 1 1 2 0 3 1
step 'planner refuses an empty window inside another' \
    example_says "second: $bad_window" '' 1 planner sound 0 0 4 4 1 1 0 2
step 'planner refuses the first of two windows that stick out' \
    example_says "first: $bad_window" '' 1 planner sound 65535 65535 65535 65535 65535 65535 65535 65535
step 'planner refuses a second window whose end wraps round' \
    example_says "second: $bad_window" '' 1 planner sound 0 0 4 4 65535 0 2 4
step 'planner refuses a file cut short' example_says "$bad_layout" '' 1 planner short 0 1 3 2 0 2 3 2
step 'planner refuses an unsound map' example_says "first: $bad_key" '' 1 planner unsound 0 1 3 2 0 2 3 2
step 'planner sees that a file is missing' \
    example_says '' 'missing: cannot be opened' 2 planner missing 0 1 3 2 0 2 3 2
step 'planner sees that a file cannot be read' \
    example_says '' 'folder: cannot be read' 2 planner folder 0 1 3 2 0 2 3 2
step 'planner sees that a number is too great' example_says '' "$usage" 2 planner sound 0 1 3 2 0 65536 3 2
step 'planner sees that a number is none' example_says '' "$usage" 2 planner sound 0 1 -3 2 0 2 3 2
step 'planner sees that the second window is missing' example_says '' "$usage" 2 planner sound 0 1 3 2
step 'planner sees that there is a number too many' example_says '' "$usage" 2 planner sound 0 1 3 2 0 2 3 2 1
step 'planner sees that it cannot write' sees_failed_output planner sound 0 1 3 2 0 2 3 2
step 'planner sees that it cannot write a refusal' sees_failed_output planner short 0 1 3 2 0 2 3 2
step 'planner sees that it cannot write which window is refused' sees_failed_output planner sound 2 0 3 1 0 2 3 2
step 'planner sees that it cannot write that there is no rectangle' sees_failed_output planner sound 0 0 2 2 2 2 2 2

map_of() { # KEYS CLASSES: lists of the same length; m is 2
    q=$(echo "$1" | wc -w)
    bytes $((20 + 5 * q)) 0 0 0 2 0 0 0 "$q" 0 0 0 20 0 0 0 $((20 + 4 * q)) 0 0 0
    for key in $1; do
        bytes "$key" 0 0 0
    done
    # shellcheck disable=SC2086 # a list
    bytes $2
}

# Like sound in the south, and elsewhere in fewer records, in as many, and in more.
map_of '5 10 15 20' '1 3 1 2' >"$files/coarse"
map_of '6 7 8 9 10 15 20' '0 1 2 3 4 1 2' >"$files/turned"
map_of '6 7 8 9 11 12 13 14 15 20' '1 1 1 1 2 2 3 1 1 2' >"$files/fine"
# Like sound but for the last record: it has another class; it is cut in four of its class.
house_file 5 1 2 2 3 1 1 3 >"$files/repainted"
map_of '5 11 12 13 14 15 21 22 23 24' '1 2 2 3 1 1 2 2 2 2' >"$files/cut-in-four"
one_record 12 0 >"$files/largest"
usage='usage: partner FILE R0 C0 H W, with a house file'
given='openings 4, records 7
block 7
  record 5, class 1
block 10
  record 11, class 2
  record 12, class 2
  record 13, class 3
  record 14, class 1
block 17
  record 15, class 1
block 21
  record 20, class 2
class 1, pixels 4
class 2, pixels 4
class 3, pixels 1'
part_of_record='openings 1, records 1
block 16
  record 15, class 1
class 1, pixels 2'
whole_picture='openings 1, records 1
block 0
  record 0, class 1
class 1, pixels 16777216'

gives() { # FILE R0 C0 H W: on standard output
    (cd "$files" && run partner "$@")
}

# Though the files differ, and what it gives of the whole picture too.
gives_the_same() {
    gives sound 2 0 2 4 >"$files/south" && gives sound 0 0 4 4 >"$files/whole" || return 1
    for other in coarse turned fine; do
        gives "$other" 2 0 2 4 >"$files/other" && cmp "$files/south" "$files/other" || return 1
        gives "$other" 0 0 4 4 >"$files/other" && ! cmp -s "$files/whole" "$files/other" || return 1
    done
}

# The windows are the south, one pixel of the record, and what is beside it.
gives_something_else() {
    for other in repainted cut-in-four; do
        for at in '2 0 2 4' '3 3 1 1'; do
            # shellcheck disable=SC2086 # four numbers
            gives sound $at >"$files/south" && gives "$other" $at >"$files/other" || return 1
            ! cmp -s "$files/south" "$files/other" || return 1
        done
        gives sound 0 0 4 2 >"$files/west" && gives "$other" 0 0 4 2 | cmp - "$files/west" || return 1
    done
}

# What it says of a window first, and what it gives then: blocks, records and pixels. Many says the same of the windows
# of a grid; the last window has more openings than these.
gives_as_many_as_it_says() {
    run many examples/lake.map 3 | tr -c '0-9\n' ' ' >"$files/grid"
    echo 1 1 30 30 94 238 900 >>"$files/grid"
    while read -r r0 c0 h w n q pixels; do
        counted=$(run partner examples/lake.map "$r0" "$c0" "$h" "$w" </dev/null | awk '
            NR == 1 { print }
            /^block/ { blocks++ }
            /^  record/ { records++ }
            /^class/ { pixels += $NF }
            END { print blocks, records, pixels }')
        [ "$counted" = "openings $n, records $q
$n $q $pixels" ] && continue
        echo "partner examples/lake.map $r0 $c0 $h $w said and gave '$counted', and not $n, $q, $pixels"
        return 1
    done <"$files/grid"
}

step 'the example partner is built' build partner examples/partner.c
step 'partner gives openings by their records' example_says "$given" '' 0 partner sound 0 1 3 3
step 'partner gives a record larger than the window' example_says "$part_of_record" '' 0 partner sound 2 0 2 1
step 'partner gives the largest picture' example_says "$whole_picture" '' 0 partner largest 0 0 4096 4096
step 'partner gives as many openings, records and pixels as there are' gives_as_many_as_it_says
step 'partner gives the same of maps that agree on the window' gives_the_same
step 'partner gives something else where a record of the window differs' gives_something_else
step 'partner refuses a window that sticks out' example_says "$bad_window" '' 1 partner sound 2 0 3 1
step 'partner refuses a file cut short' example_says "$bad_layout" '' 1 partner short 0 1 3 3
step 'partner refuses an unsound map' example_says "$bad_key" '' 1 partner unsound 0 1 3 3
step 'partner sees that a file is missing' example_says '' 'missing: cannot be opened' 2 partner missing 0 1 3 3
step 'partner sees that a file cannot be read' example_says '' 'folder: cannot be read' 2 partner folder 0 1 3 3
step 'partner sees that a number is too great' example_says '' "$usage" 2 partner sound 0 1 3 65536
step 'partner sees that a number is missing' example_says '' "$usage" 2 partner sound 0 1 3
step 'partner sees that there is a number too many' example_says '' "$usage" 2 partner sound 0 1 3 3 1
step 'partner sees that it cannot write' sees_failed_output partner sound 0 1 3 3
step 'partner sees that it cannot write a refusal' sees_failed_output partner short 0 1 3 3
step 'partner sees that it cannot write that a window is refused' sees_failed_output partner sound 2 0 3 1

usage='usage: sparse FILE BACKGROUND R0 C0 H W CLASS, with a house file'

both() { # RECORDS RECORDS BYTES BYTES EXISTS PIXELS BLOCKS [BLOCKS]: the last three of both maps, if there is no fourth
    printf '%-8s %10s %10s\n' '' complete sparse records "$1" "$2" bytes "$3" "$4" exists "$5" "$5" pixels "$6" "$6" \
        blocks "$7" "${8-$7}"
}

# Whatever class is left out, and whatever is asked for, in windows all over the lake.
loses_nothing() {
    for class in 0 1 2 3 255 4; do
        for window in '0 0 32 32' '1 1 30 30' '12 8 10 16' '31 0 1 32' '7 19 1 1'; do
            for asked in 0 1 2 3 255 4; do
                # shellcheck disable=SC2086 # a window is a list of numbers
                run sparse examples/lake.map "$class" $window "$asked" </dev/null >"$files/both" || return 1
                awk -v same="$((class != asked))" '
                    /^exists/ && substr($0, 9, 11) != substr($0, 20, 11) { exit 1 }
                    /^pixels/ && $2 != $3 { exit 1 }
                    /^blocks/ && (same ? $2 != $3 : $2 < $3) { exit 1 }
                    END { if (NR != 6) exit 1 }' "$files/both" && continue
                echo "sparse examples/lake.map $class $window $asked said"
                cat "$files/both"
                return 1
            done
        done
    done
}

house_file 5 1 1 1 1 1 1 1 >"$files/alike"
step 'the example sparse is built' build sparse examples/sparse.c
step 'sparse says both of a class' example_says "$(both 7 4 55 40 yes 4 4)" '' 0 sparse sound 1 0 1 3 3 2
step 'sparse says both of the background' example_says "$(both 7 4 55 40 yes 4 4)" '' 0 sparse sound 1 0 1 3 3 1
step 'sparse says both of a class that is not there' \
    example_says "$(both 7 4 55 40 no 0 0)" '' 0 sparse sound 1 0 1 3 3 255
step 'sparse says both where not all was seen' \
    example_says "$(both 7 6 55 50 "can't tell" 0 0)" '' 0 sparse partly 255 0 1 3 3 3
step 'sparse leaves nothing of a picture of one class' \
    example_says "$(both 1 0 25 20 yes 1 1)" '' 0 sparse pixel 1 0 0 1 1 1
step 'sparse leaves all where the class is nowhere' \
    example_says "$(both 7 7 55 55 yes 4 4)" '' 0 sparse sound 0 0 1 3 3 1
step 'sparse lists gaps by larger blocks than records' \
    example_says "$(both 7 0 55 20 yes 16 7 1)" '' 0 sparse alike 1 0 0 4 4 1
step 'sparse loses nothing of the lake' loses_nothing
step 'sparse refuses a window that sticks out' example_says "$bad_window" '' 1 sparse sound 1 2 0 3 1 1
step 'sparse refuses a file cut short' example_says "$bad_layout" '' 1 sparse short 1 0 1 3 3 1
step 'sparse refuses an unsound map' example_says "$bad_key" '' 1 sparse unsound 1 0 1 3 3 1
step 'sparse sees that a file is missing' example_says '' 'missing: cannot be opened' 2 sparse missing 1 0 1 3 3 1
step 'sparse sees that a file cannot be read' example_says '' 'folder: cannot be read' 2 sparse folder 1 0 1 3 3 1
step 'sparse sees that the class to leave out is too great' example_says '' "$usage" 2 sparse sound 256 0 1 3 3 1
step 'sparse sees that a number is too great' example_says '' "$usage" 2 sparse sound 1 0 1 3 65536 1
step 'sparse sees that a class is too great' example_says '' "$usage" 2 sparse sound 1 0 1 3 3 256
step 'sparse sees that the class is missing' example_says '' "$usage" 2 sparse sound 1 0 1 3 3
step 'sparse sees that there is a number too many' example_says '' "$usage" 2 sparse sound 1 0 1 3 3 1 1
step 'sparse sees that it cannot write' sees_failed_output sparse sound 1 0 1 3 3 1
step 'sparse sees that it cannot write a refusal' sees_failed_output sparse short 1 0 1 3 3 1

map_of '5 11 26 11 14 20' '1 2 2 3 1 2' >"$files/broken"
map_of '5 11 12 13 14 15 20' '1 2 255 255 1 255 2' >"$files/filled"
map_of '' '' >"$files/no-record"
map_of '0' '255' >"$files/not-seen"
one_record 13 0 >"$files/too-large"
usage='usage: salvage FILE [MENDED], with a house file that may be broken'
mended='record 2 is dropped: its key 26 names no block
record 3 is dropped: its block 11 starts before the last one kept ended
block 12 is filled in as not seen
block 13 is filled in as not seen
block 15 is filled in as not seen
mended: m 2, 7 records, 2 dropped, 3 filled in'
from_nothing='block 0 is filled in as not seen
mended: m 2, 1 records, 0 dropped, 1 filled in'

writes_map() { # LINES WANTED FILE: what it says of the file, and the one that it must write
    rm -f "$files/mended"
    example_says "$1" '' 0 salvage "$3" mended && cmp "$files/$2" "$files/mended"
}

# Of 65,536 records, the first of which is the picture.
mends_longest() {
    run salvage "$files/longest" "$files/mended" >"$files/log" || return 1
    counted=$(awk '/^record .* is dropped: its block 0 starts / { n++ } END { print n, $0 }' "$files/log")
    [ "$counted" = '65535 mended: m 8, 1 records, 65535 dropped, 0 filled in' ] \
        && (cd "$files" && run check mended >checked) && return 0
    echo "salvage longest said $counted"
    return 1
}

# What was there stays where a map is refused.
writes_nothing() { # FILE
    echo mine >"$files/mended"
    (cd "$files" && run salvage "$1" mended >log)
    [ "$?" = 1 ] && [ "$(cat "$files/mended")" = mine ]
}

step 'the example salvage is built' build salvage examples/salvage.c
step 'salvage says what it drops and fills in' example_says "$mended" '' 0 salvage broken
step 'salvage says of a sound map that it is sound' example_says 'sound: m 2, 7 records' '' 0 salvage sound
step 'salvage mends a map of no record' example_says "$from_nothing" '' 0 salvage no-record
step 'salvage writes the map mended' writes_map "$mended" filled broken
step 'salvage mends what it mended no more' example_says 'sound: m 2, 7 records' '' 0 salvage mended
step 'salvage writes a sound map as it was' writes_map 'sound: m 2, 7 records' sound sound
step 'salvage writes what it makes of no record' writes_map "$from_nothing" not-seen no-record
step 'salvage mends the longest file' mends_longest
step 'salvage refuses a file cut short' example_says "$bad_layout" '' 1 salvage short
step 'salvage refuses a file that is too long' example_says "$bad_layout" '' 1 salvage longer
step 'salvage refuses a picture that is too large' \
    example_says 'refused 1 at 0: m is over 12' '' 1 salvage too-large
step 'salvage writes nothing where a file is refused' writes_nothing short
step 'salvage sees that a file is missing' example_says '' 'missing: cannot be opened' 2 salvage missing
step 'salvage sees that a file cannot be read' example_says '' 'folder: cannot be read' 2 salvage folder
step 'salvage sees that a file cannot be opened for writing' \
    example_says "$mended" 'folder: cannot be written' 2 salvage broken folder
step 'salvage sees that a file cannot be written' \
    example_says "$mended" '/dev/full: cannot be written' 2 salvage broken /dev/full
step 'salvage sees that no file is named' example_says '' "$usage" 2 salvage
step 'salvage sees that there is a file too many' example_says '' "$usage" 2 salvage broken mended more
step 'salvage sees that it cannot write' sees_failed_output salvage broken
step 'salvage sees that it cannot write a refusal' sees_failed_output salvage short

house_file 5 1 3 3 1 1 1 2 >"$files/second"
house_file 5 1 2 2 2 1 2 255 >"$files/third"
one_record 12 1 >"$files/garbled"
three_maps='pixels in the window: 9, days: 3
class     least  greatest         mean     days
    1         3         5         4.00        3
    2         2         4         3.33        3
    3         0         2         1.00        2
  255         0         2         0.67        1'
eight_maps='pixels in the window: 9, days: 8
class     least  greatest         mean     days
    1         3         4         3.13        8
    2         4         4         4.00        8
    3         0         1         0.13        1
  255         0         2         1.75        7'
no_map='month: no map was taken'
usage='usage: month R0 C0 H W FILE..., the files of a month'
step 'the example month is built' build month examples/month.c
step 'month takes three maps' example_says "$three_maps" '' 0 month 0 1 3 3 sound second third
step 'month rounds halves up' \
    example_says "$eight_maps" '' 0 month 0 1 3 3 sound third third third third third third third
step 'month leaves out a file cut short' \
    example_says "$three_maps" "short: $bad_layout" 1 month 0 1 3 3 sound short second third
step 'month leaves out an unsound map' \
    example_says "$three_maps" "unsound: $bad_key" 1 month 0 1 3 3 sound second unsound third
step 'month leaves out a map of another m' \
    example_says "$three_maps" "pixel: $other_m" 1 month 0 1 3 3 sound second third pixel
step 'month leaves out a missing file' \
    example_says "$three_maps" 'missing: cannot be opened' 1 month 0 1 3 3 missing sound second third
step 'month leaves out a file that cannot be read' \
    example_says "$three_maps" 'folder: cannot be read' 1 month 0 1 3 3 sound second folder third
step 'month begins with the first map that it takes' \
    example_says "$three_maps" "garbled: $bad_key" 1 month 0 1 3 3 garbled sound second third
step 'month refuses a window that sticks out' example_says '' "sound: $bad_window
$no_map" 2 month 2 0 3 1 sound
step 'month sees that there is no map' example_says '' "missing: cannot be opened
$no_map" 2 month 0 1 3 3 missing
step 'month sees that a number is too great' example_says '' "$usage" 2 month 65536 1 3 3 sound
step 'month sees that a number is none' example_says '' "$usage" 2 month 0 1 +3 3 sound
step 'month sees that no file is named' example_says '' "$usage" 2 month 0 1 3 3
step 'month sees that it cannot write' sees_failed_output month 0 1 3 3 sound second third

cp examples/lake.map "$files/lake"
dd if=examples/lake.map of="$files/cut" bs=1 count=400 2>/dev/null
one_record 5 0 >"$files/green"
one_record 6 0 >"$files/larger"
one_record 13 0 >"$files/vast"
one_record 5 1 >"$files/keyless"
bytes 20 0 0 0 5 0 0 0 0 0 0 0 20 0 0 0 20 0 0 0 >"$files/empty"
lake_from 0 0 0 0 >"$files/twice" # the whole picture, and then its records
lake_from 226 4 0 0 >"$files/behind" # a record of the north-east quarter, 1,250
none='inlet: no answer yet
middle: no answer yet
intake: no answer yet'
of_lake='inlet: 50 of 112 pixels are scum, 0 were not seen
middle: 4 of 160 pixels are scum, 4 were not seen
intake: 18 of 96 pixels are scum, 0 were not seen'
of_green='inlet: 112 of 112 pixels are scum, 0 were not seen
middle: 160 of 160 pixels are scum, 0 were not seen
intake: 96 of 96 pixels are scum, 0 were not seen'
cut="cut: $bad_layout
cut: no house file: was it cut or changed on its way?"

old() { # PICTURES LINES
    echo "$2" | sed "s/: /: OLD by $1: /"
}

# The last answers stay, and are old.
not_taken() { # ERRORS NAME
    example_says "$of_lake
$(old 1 "$of_lake")" "$1" 1 acquire lake "$2"
}

no_house_file() { # REFUSAL NAME
    not_taken "$2: $1
$2: no house file: was it cut or changed on its way?" "$2"
}

broken_map() { # REFUSAL NAME
    not_taken "$2: $1
$2: a house file with a broken map: what made it is wrong" "$2"
}

# The program with something wrong in it ends at the first picture.
wrong_program() { # REFUSAL RIGHT WRONG
    sed "s/$2/$3/" examples/acquire.c >"$files/wrong.c"
    build wrong -Iexamples "$files/wrong.c" || return 1
    example_says "$none" "lake: $1
acquire: this program is wrong, and not the picture" 3 wrong lake lake
}

step 'the example acquire is built' build acquire examples/acquire.c
step 'acquire takes each picture' example_says "$of_lake
$of_green" '' 0 acquire lake green
step 'acquire keeps the last answers where a picture is refused' example_says "$of_lake
$(old 1 "$of_lake")
$of_green" "$cut" 1 acquire lake cut green
step 'acquire counts how old its answers are' example_says "$of_lake
$of_green
$(old 1 "$of_green")
$(old 2 "$of_green")
$of_lake" "$cut
$cut" 1 acquire lake green cut cut lake
step 'acquire has no answer before the first picture that it takes' example_says "$none
$of_lake" "$cut" 1 acquire cut lake
step 'acquire knows a wrong layout as no house file' no_house_file "$bad_layout" cut
step 'acquire knows a wrong m as no house file' no_house_file 'refused 1 at 0: m is over 12' vast
step 'acquire knows a wrong count as no house file' no_house_file "$no_records" empty
step 'acquire knows a wrong key as a broken map' broken_map "$bad_key" keyless
step 'acquire knows an overlap as a broken map' broken_map "$overlap" twice
step 'acquire knows a gap as a broken map' broken_map "$gap" behind
step 'acquire does not take a smaller picture' \
    not_taken 'pixel: a picture of m 0, and the windows are drawn for m 5' pixel
step 'acquire does not take a larger picture, in which its windows lie too' \
    not_taken 'larger: a picture of m 6, and the windows are drawn for m 5' larger
step 'acquire sees that a file is missing' not_taken 'missing: cannot be opened' missing
step 'acquire sees that a file cannot be read' not_taken 'folder: cannot be read' folder
step 'acquire knows a window that sticks out as its own fault' \
    wrong_program "$bad_window" '{6, 4, 8, 14}' '{6, 4, 27, 14}'
step 'acquire knows a short border as its own fault' wrong_program \
    'refused 7 at 14: the border has fewer cells than the window has columns' LUTNIORAD_MOST_SIDE 13
step 'acquire knows short totals as its own fault' wrong_program \
    'refused 8 at 256: a slice that would be written is too short' 'totals, LUTNIORAD_CLASSES' 'totals, 255'
step 'acquire sees that no file is named' example_says '' 'usage: acquire FILE..., house files' 2 acquire
step 'acquire sees that it cannot write' sees_failed_output acquire lake lake

map_of '9 13 14' '3 2 2' >"$files/changed"
map_of '5 24' '255 1' >"$files/clouded"
usage='usage: overlay TODAY BASELINE R0 C0 H W CLASS, with two house files'
of_both='class 1, pixels 2
class 2, pixels 6
class 3, pixels 1
block 10, today, first record 1, records 2
block 21, baseline, first record 6, records 1
block 22, baseline, first record 6, records 1'
of_baseline='class 1, pixels 4
class 2, pixels 4
class 3, pixels 1
block 13, baseline, first record 3, records 1'
of_clouded='class 1, pixels 6
class 2, pixels 5
class 3, pixels 1
class 255, pixels 4
block 5, today, first record 0, records 1'

totals_of() { # TODAY BASELINE R0 C0 H W: what an overlay has of each class there
    run overlay "$@" 1 </dev/null | grep '^class'
}

# Under a map of all pixels the other does not show, and over one without records neither does that. Scum is class 1.
shows_one_map() {
    for at in '0 0 32 32' '1 1 30 30' '12 8 10 16' '6 4 8 14' '4 8 8 8'; do
        # shellcheck disable=SC2086 # four numbers
        nothing=$(totals_of "$files/empty" examples/lake.map $at) \
            all=$(totals_of examples/lake.map "$files/green" $at) scum=$(run scum examples/lake.map $at 1)
        [ "$nothing" = "$all" ] && [ "$(echo "$all" | sed -n 's/^class 1, pixels //p')" = "${scum%% of *}" ] && continue
        echo "overlay said in $at of nothing over the lake '$nothing', of the lake over another map '$all', not '$scum'"
        return 1
    done
}

step 'the example overlay is built' build overlay examples/overlay.c
step 'overlay joins both maps' example_says "$of_both" '' 0 overlay changed sound 0 1 3 3 2
step 'overlay shows the baseline where there is nothing today' \
    example_says "$of_baseline" '' 0 overlay no-record sound 0 1 3 3 3
step 'overlay shows what was not seen today as not seen' \
    example_says "$of_clouded" '' 0 overlay clouded sound 0 0 4 4 255
step 'overlay lists no block of a class that is hidden' \
    example_says 'class 2, pixels 1' '' 0 overlay changed sound 1 2 1 1 3
step 'overlay shows one map where that has all, or the other nothing' shows_one_map
step 'overlay refuses an unsound map of today' \
    example_says "today: $bad_key" '' 1 overlay unsound unsound 0 1 3 3 1
step 'overlay refuses an unsound baseline' example_says "baseline: $bad_key" '' 1 overlay changed unsound 0 1 3 3 1
step 'overlay refuses a baseline with a gap' example_says "baseline: $gap" '' 1 overlay sound changed 0 1 3 3 1
step 'overlay refuses a baseline without a record' \
    example_says "baseline: $no_records" '' 1 overlay sound no-record 0 1 3 3 1
step 'overlay refuses a file of today cut short' example_says "today: $bad_layout" '' 1 overlay short short 0 1 3 3 1
step 'overlay refuses a file of the baseline cut short' \
    example_says "baseline: $bad_layout" '' 1 overlay changed short 0 1 3 3 1
step 'overlay refuses a baseline of another m' example_says "$other_m" '' 1 overlay changed pixel 0 1 3 3 1
step 'overlay refuses a window that sticks out' example_says "$bad_window" '' 1 overlay changed sound 2 0 3 1 1
step 'overlay sees that the file of today is missing' \
    example_says '' 'missing: cannot be opened' 2 overlay missing sound 0 1 3 3 1
step 'overlay sees that the file of the baseline is missing' \
    example_says '' 'missing: cannot be opened' 2 overlay changed missing 0 1 3 3 1
step 'overlay sees that a file cannot be read' \
    example_says '' 'folder: cannot be read' 2 overlay changed folder 0 1 3 3 1
step 'overlay sees that a number is too great' example_says '' "$usage" 2 overlay changed sound 0 1 3 65536 1
step 'overlay sees that a class is too great' example_says '' "$usage" 2 overlay changed sound 0 1 3 3 256
step 'overlay sees that the class is missing' example_says '' "$usage" 2 overlay changed sound 0 1 3 3
step 'overlay sees that there is a number too many' example_says '' "$usage" 2 overlay changed sound 0 1 3 3 1 1
step 'overlay sees that it cannot write' sees_failed_output overlay changed sound 0 1 3 3 1
step 'overlay sees that it cannot write a refusal' sees_failed_output overlay short sound 0 1 3 3 1
