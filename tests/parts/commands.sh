# shellcheck shell=sh
# shellcheck disable=SC2154 # tests/run, which reads this, has the variables
# The commands of README, run as they stand there.
#
# A command is an indented line that begins with '$ ', and the lines below it, up to the next one or the end of the
# block, are what it prints, on both outputs. The commands of a block go to one shell, in the root of the repository.
# Each ends with status 0, or 'echo $?' follows and says with which. What make prints is not looked at.

need pkg-config:pkg-config || exit 2

# The commands that are not run, and why.
cat >"$files/not-run" <<'END'
make lib: tests/run has just done that
make test: it runs this
make bench: it takes minutes
make check: it may take minutes
make format: it may change the repository
make statement: it may change the repository
make clean: it removes what is run here
END

# What stands before the commands of each block. What they build is for x86-64 on every machine.
cat >"$files/before" <<'END'
gcc() { command "$cc" "$@"; }
typed() { status=$?; cat; return "$status"; } # the status that 'echo $?' is to find
ended() { status=$?; [ "$status" = 0 ] || echo "status $status"; }
END

# Makes three files for each block of README: NUMBER.line says where its first command is, NUMBER.screen what the screen
# shows, and NUMBER.commands is for the shell. Prints what is wrong with README.
take_commands() {
    awk -v files="$files" '
        function enter(line,    command) {
            inside = 1
            command = substr(line, 3)
            sub(/ +# .*/, "", command) # its comment
            left_out = command in not_run
            if (left_out) {
                met[command]
                return
            }
            if (!begun) {
                begun = files "/" ++blocks
                print FNR >(begun ".line")
            } else if (command != "echo $?")
                print "ended" >(begun ".commands")
            print line >(begun ".screen")
            print "typed <<\\END\n" line "\nEND" >(begun ".commands")
            print command (command ~ /^make / ? " >\"$made\" 2>&1" : "") >(begun ".commands")
        }

        function leave() {
            if (begun) print "ended" >(begun ".commands")
            inside = 0
            begun = ""
        }

        FILENAME != "README.md" { sub(/: [^:]*$/, ""); not_run[$0]; next }
        /^(```|\t)/ { print "line " FNR " is not indented by four spaces, and may be a command" }
        !/^    / { leave(); next }
        { line = substr($0, 5) }
        line ~ /^\$ / { enter(line); next }
        inside && !left_out { print line >(begun ".screen") }
        !inside && line ~ /^(make|gcc|g\+\+|cc|rt|sh|bash|if|for|cd|printf|echo|cat|head|sudo|git|pkg-config) [^(]/ ||
            !inside && line ~ /^(\.\/|(target|tests|bench|crates\/[a-z_]+\/out)\/[a-z])/ { print "a command without $: " line }

        END {
            leave()
            for (command in not_run)
                if (!(command in met)) print "not among the commands of README: " command
            if (!blocks) print "no command of README is run"
        }' "$files/not-run" README.md >"$files/wrong"
    cat "$files/wrong"
    [ ! -s "$files/wrong" ]
}

# The emulator goes before every program of ours: where a command begins, and not where a program is an argument.
# shellcheck disable=SC2016 # the shell that runs the commands expands it
block_holds() { # NUMBER
    block=$files/$1
    {
        cat "$files/before"
        sed -E '/^\$ /!s#(^|[(|;&] *|(if|then|do) )(target|crates/[a-z_]+/out)/#\1$emulator \3/#g' "$block.commands"
    } >"$block.sh"
    rm -f "$files/made"
    cc=$cc emulator=$emulator made=$files/made sh "$block.sh" </dev/null >"$block.shown" 2>&1
    diff -u "$block.screen" "$block.shown" && return 0
    [ ! -e "$files/made" ] || tail -n 20 "$files/made"
    return 1
}

step 'the commands of README are taken' take_commands
number=1
while [ -e "$files/$number.line" ]; do
    step "the commands of README from line $(cat "$files/$number.line") on print what it says" block_holds "$number"
    number=$((number + 1))
done
