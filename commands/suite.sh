# What `./bublastyr suite` does. Read by `bublastyr` after commands/build.sh.

# What is wrong with a suite that has no report, by what the program printed, $1.
suite_fault() {
    case "$1" in
        'bad input') echo "bad input: a suite is its number of tests and for each a mode, a number, readings and two inputs" ;;
        'answer 30') echo "the suite has more than 64 tests; none was run" ;;
        'answer 32') echo "a test has a mode above 2, or expects a number above 11; none was run" ;;
        *) return 1 ;;
    esac
}

# Whether the table in the last lines of the report $1 counts as many tests as its last line.
adds_up() {
    tail -n 4 <<<"$1" | awk '
        /^mode/ { rows++; for (i = 3; i <= NF; i++) run += $i }
        /^[0-9]/ { told = $1 + $4 + $6 }
        END { exit !(rows == 3 && run == told) }'
}

# Runs the tests in FILE or on standard input, and prints what came of them.
suite() {
    local row='( [0-9]+){12}'$'\n' why='' end=2
    local report="mode 0:${row}mode 1:${row}mode 2:${row}([0-9]+) as expected, ([0-9]+) not, ([0-9]+) not run"$'\n''$'
    [ $# -le 1 ] || fail "suite takes one file at most: ./bublastyr suite [FILE]"
    take_input "$@"
    build report
    runner report
    work=$(mktemp -d)
    # one byte more than the longest text is enough to tell that a text is too long
    head -c 1048577 >"$work/text" 2>/dev/null || fail "the input could not be read"
    said=$("${run[@]}" <"$work/text" && echo end) || fail "the program failed"
    said=${said%end}
    [ -n "$said" ] || fail "the program printed nothing"
    LC_ALL=C
    if [[ $said =~ (^|$'\n')$report ]] && adds_up "${said%$'\n'}"; then
        local good=${BASH_REMATCH[5]} other=${BASH_REMATCH[6]} missed=${BASH_REMATCH[7]}
        if [ "$missed" != 0 ]; then
            end=2
        elif [ "$other" != 0 ]; then
            end=1
        elif [ "$good" != 0 ]; then
            end=0
        else
            why="there was no test to run"
        fi
    else
        why=$(suite_fault "${said%$'\n'}") || fail "the program printed what it never should"
    fi
    trap '' PIPE
    printf '%s' "$said" 2>/dev/null || fail "the report could not be printed"
    [ -z "$why" ] || fail "$why"
    status=$end
}
