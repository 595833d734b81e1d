# What `./bublastyr cross` does. Read by `bublastyr` after commands/build.sh.

# Runs the calls in FILE or on standard input by both engines, and prints how many came out alike.
cross() {
    local all='^calls ([1-9][0-9]*) alike ([1-9][0-9]*)'$'\n''$' some='^calls [0-9]+ alike [0-9]+ unlike [1-9][0-9]*'$'\n''$'
    local bad='^calls ([0-9]+) alike [0-9]+( unlike [1-9][0-9]*)? bad ([1-9][0-9]*)'$'\n''$'
    local end=2 why=''
    [ $# -le 1 ] || fail "cross takes one file at most: ./bublastyr cross [FILE]"
    take_input "$@"
    build cross
    runner cross
    work=$(mktemp -d)
    # `cat` fails where a read fails, which the program takes for the end of the input; 141 says that the program, which stops at
    # bad input, had read enough. `end` keeps the last newline.
    said=$({ ended=0; cat 2>/dev/null || ended=$?; echo "$ended" >"$work/read"; } | "${run[@]}" && echo end) ||
        fail "the program failed"
    case $(cat "$work/read") in
        0 | 141) ;;
        *) fail "the input could not be read" ;;
    esac
    said=${said%end}
    [ -n "$said" ] || fail "the program printed nothing"
    LC_ALL=C
    if [[ $said =~ $all ]] && [ "${BASH_REMATCH[1]}" = "${BASH_REMATCH[2]}" ]; then
        end=0
    elif [[ $said =~ $some ]]; then
        end=1
    elif [[ $said =~ $bad ]]; then
        why="call ${BASH_REMATCH[3]} is bad input: a call is a mode and two inputs, each a word count and so many words"
    elif [ "$said" = $'calls 0 alike 0\n' ]; then
        why="there was no call to run"
    else
        fail "the program printed what it never should"
    fi
    trap '' PIPE
    printf '%s' "$said" 2>/dev/null || fail "the answer could not be printed"
    [ -z "$why" ] || fail "$why"
    status=$end
}
