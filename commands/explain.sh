# The sentences of `./bublastyr explain`, made from the numbers that the program prints and, where the definite graphs clash, from
# the call itself; docs/EXPLAIN.md has both. Read by `bublastyr` after commands/build.sh.

# Says what came of a call: number, length and readings.
say_number() {
    local readings=''
    case "$3" in
        0) ;;
        1) readings=' and 1 reading' ;;
        *) readings=" and $3 readings" ;;
    esac
    case "$1" in
        0) echo "number 0: unified; the result has $2 words$readings" ;;
        1) echo "number 1: refused; the mode is above 2" ;;
        2) echo "number 2: refused; the working area has fewer than 16384 words" ;;
        3) echo "number 3: refused; an input has more than 1024 words" ;;
        4) echo "number 4: refused; the first input is malformed" ;;
        5) echo "number 5: refused; the second input is malformed" ;;
        6) echo "number 6: a clash; the definite graphs clash" ;;
        7) echo "number 7: refused; the quick step leaves more than 4096 choices" ;;
        8) echo "number 8: refused; the result has $2 words, more than the result area" ;;
        10)
            echo "number 10: a clash; the definite graphs agree, but in the quick step a disjunction has no alternative left," \
                "or folding clashes"
            ;;
        11) echo "number 11: a clash; the quick step does not fail, but no choice is consistent" ;;
    esac
}

# What was to come where words end, by its number.
kind_of() {
    case "$1" in
        1) echo "node count" ;;
        2) echo "head" ;;
        3) echo "feature" ;;
        4) echo "target" ;;
        5) echo "number of disjunctions" ;;
        6) echo "number of alternatives" ;;
    esac
}

# What is wrong with the feature $1 where the least is $2.
say_feature() {
    local fault="does not rise" could="a feature is from $2 to 65535"
    [ "$1" -le 65535 ] || fault="is out of range"
    [ "$2" -le 65535 ] || could="no feature can stand, since the one before is 65535"
    echo "feature $1 $fault; here $could"
}

# What is wrong by cause $1 with the word $2, and what could stand there, by the hint $3.
say_cause() {
    case "$1" in
        1) echo "the words end; here a $(kind_of "$3") was to come" ;;
        2) echo "$2 is left over; after the end nothing can stand" ;;
        3) echo "node count $2 leaves no nodes; here a node count is at least 1" ;;
        4) echo "head $2 is too large; here a head is at most 131071" ;;
        5) say_feature "$2" "$3" ;;
        6) echo "target $2 is out of turn; here a target is at most $3" ;;
        7) echo "head $2 is of node $3, which is not yet met; here no head can stand until an arc leads to node $3" ;;
        8) echo "number of alternatives $2 is too small; here a number of alternatives is at least 2" ;;
        9) echo "number of disjunctions $2 nests too deep; here a number of disjunctions is 0" ;;
    esac
}

# Where the definite graphs of the call in $work/text clash, by the node $1; fails where they do not clash there.
where_it_clashes() {
    awk -v node="$1" -f "$top/commands/clash.awk" <"$work/text"
}

# The sentences for what the program printed, $1; fails where that is nothing it should print.
sentences() {
    local number='(0|[1-9][0-9]{0,9})' end=$'\n' unified longer other clash malformed told input=first
    unified="^answer (0) words $number readings $number$end[0-9 ]+$end\$"
    longer="^answer (8) words $number readings (0)$end\$"
    other="^answer ([1-37]|1[01]) words (0) readings (0)$end\$"
    clash="^answer (6) words (0) readings (0)${end}node $number$end\$"
    malformed="^answer ([45]) words (0) readings (0)${end}cause ([1-9]) word $number stands $number hint $number$end\$"
    if [ "$1" = "bad input$end" ]; then
        echo "bad input: a call is a mode and two inputs, each a word count and so many words"
    elif [[ $1 =~ $unified || $1 =~ $longer || $1 =~ $other ]]; then
        say_number "${BASH_REMATCH[@]:1:3}"
    elif [[ $1 =~ $clash ]]; then
        told=("${BASH_REMATCH[@]:1}")
        say_number "${told[@]:0:3}"
        where_it_clashes "${told[3]}"
    elif [[ $1 =~ $malformed ]]; then
        told=("${BASH_REMATCH[@]:1}")
        [ "${told[0]}" = 4 ] || input=second
        [ "${told[3]}" != 1 ] || [[ ${told[6]} = [1-6] ]] || return 1
        say_number "${told[@]:0:3}"
        echo "$input input, word ${told[4]}: $(say_cause "${told[3]}" "${told[5]}" "${told[6]}")"
    else
        return 1
    fi
}

# Says what came of the call in FILE or on standard input.
explain() {
    local text
    [ $# -le 1 ] || fail "explain takes one file at most: ./bublastyr explain [FILE]"
    take_input "$@"
    build explain
    runner explain
    work=$(mktemp -d)
    # 65,537 bytes are enough to tell that an input is too long; `end` keeps the last newline
    head -c 65537 >"$work/text" 2>/dev/null || fail "the input could not be read"
    said=$("${run[@]}" <"$work/text" && echo end) || fail "the program failed"
    said=${said%end}
    [ -n "$said" ] || fail "the program printed nothing"
    LC_ALL=C
    text=$(sentences "$said") || fail "the program printed what it never should"
    trap '' PIPE
    printf '%s\n' "$text" 2>/dev/null || fail "the answer could not be printed"
    case "$text" in
        'number 0: '*) status=0 ;;
        'number '*': a clash; '*) status=1 ;;
    esac
}
