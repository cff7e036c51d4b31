# shellcheck shell=sh
# shellcheck disable=SC2154 # tests/run, which reads this, has the variables
# The archive.

# Of all that the archive does not bring along itself it asks for these: no heap, no lock, no errno.
stands_alone() {
    "$nm" -P "$archive" >"$files/symbols" || return 1
    asked=$(awk 'NF == 2 { used[$1] } # a name and U; one that is defined has an address too
        NF > 2 { brought[$1] }
        END { for (name in used) if (!(name in brought)) print name }' "$files/symbols" | sort | tr '\n' ' ')
    [ "$asked" = 'memcpy memset ' ] && return 0
    echo "the archive asks for $asked"
    return 1
}

# It remembers nothing from one call to the next: no part of it can be written.
keeps_nothing() {
    readelf -S -W "$archive" >"$files/sections" && grep -q ' AX ' "$files/sections" || return 1
    ! grep -E ' WAX? ' "$files/sections"
}

step 'the archive asks for memcpy and memset and nothing else' stands_alone
step 'the archive has no memory of its own' keeps_nothing
