# What `./bublastyr library` does. Read by `bublastyr` after commands/build.sh.

# Bytes of the longest library, which has 541 blocks, and of the longest text that is put.
longest_library=276992
longest_lines=1048576

# What a number says of the library $library or its description $2, for a refusal $1.
library_refusal() {
    case "$1" in
        40) echo "number 40: $library is no library; its length is zero or no whole number of blocks of 512 bytes" ;;
        41) echo "number 41: block 0 of $library is damaged, which costs the whole library" ;;
        42) echo "number 42: the index of $library breaks a rule" ;;
        43) echo "number 43: $library has no description $2" ;;
        44) echo "number 44: a block of description $2 of $library is damaged" ;;
        45) echo "number 45: description $2 of $library is malformed" ;;
        *) return 1 ;;
    esac
}

# Says what is wrong with the library, and ends: it is damaged, or the description is not there.
refuse() {
    local why
    why=$(library_refusal "$@") || fail "the program printed what it never should"
    echo "$name: $why" >&2
    status=1
    exit 1
}

# Reads the library $1 into $work/file; a longer file than any library is told at once.
read_library() {
    local size told
    library=$1
    take_input "$library"
    head -c $((longest_library + 1)) >"$work/file" 2>/dev/null || fail "$library could not be read"
    size=$(wc -c <"$work/file")
    if [ "$size" -gt "$longest_library" ]; then
        echo "$name: $library is no library; it has more than $longest_library bytes" >&2
        status=1
        exit 1
    fi
    told=$(stat -Lc %s "$library")
    [ ! -f "$library" ] || [ "$told" = "$size" ] || fail "$library has $told bytes, but $size were read"
}

# Asks the program for command $1 and identifier $2 over the file $3; what it prints goes to $work/said.
ask() {
    { printf '%s %s\n' "$1" "$2" && cat "$3"; } >"$work/text" 2>/dev/null || fail "there is no space for the text of the program"
    { "${librarian[@]}" <"$work/text" >"$work/said"; } 2>/dev/null || fail "the program failed"
    [ -s "$work/said" ] || fail "the program printed nothing"
}

# Asks for words with command $1 and identifier $2 over the file $3: sets $number and, where that is 0, $words.
ask_words() {
    local said answer=$'^answer 0 words ([0-9]+)\n([0-9 ]*)\n$' refused=$'^answer (4[0-5]) words 0\n$'
    ask "$@"
    said=$(cat "$work/said" && echo end)
    said=${said%end}
    if [[ $said =~ $answer ]]; then
        number=0
        read -ra words <<<"${BASH_REMATCH[2]}"
        [ "${#words[@]}" = "${BASH_REMATCH[1]}" ] || fail "the program printed what it never should"
    elif [[ $said =~ $refused ]]; then
        number=${BASH_REMATCH[1]}
    else
        fail "the program printed what it never should"
    fi
}

# So many things of the name $2.
counted() {
    [ "$1" = 1 ] || set -- "$1" "$2s"
    echo "$1 $2"
}

# Prints what standard input has; once that is done the exit status is to be $1. Where it cannot be, the sentence is $2.
print_all() {
    trap '' PIPE
    cat 2>/dev/null || fail "${2-the answer could not be printed}"
    status=$1
}

list_library() {
    ask_words 1 0 "$work/file"
    [ "$number" = 0 ] || refuse "$number"
    { [ "${#words[@]}" = 0 ] || printf '%s %s\n' "${words[@]}"; } >"$work/answer"
    print_all 0 <"$work/answer"
}

get_description() {
    local identifier=$1
    [[ $identifier =~ ^[0-9]{1,9}$ ]] || fail "an identifier is a number from 0 to 65535"
    ask_words 2 "$identifier" "$work/file"
    [ "$number" = 0 ] || refuse "$number" "$((10#$identifier))"
    echo "${words[*]}" >"$work/answer"
    print_all 0 <"$work/answer"
}

# Prints the damaged blocks, from what the program printed; sets $costs to the descriptions that they cost, each once.
say_damaged() {
    local word block identifier
    costs=' '
    while read -r word block word identifier; do
        echo "block $block is damaged; it costs description $identifier"
        [[ $costs = *" $identifier "* ]] || costs+="$identifier "
    done < <(tail -n +2 "$work/said")
}

# Prints the descriptions that are malformed though no block of theirs is damaged, and adds them to $costs.
say_malformed() {
    local identifier
    for identifier in "$@"; do
        [[ $costs != *" $identifier "* ]] || continue
        ask_words 2 "$identifier" "$work/file"
        case "$number" in
            0) ;;
            45)
                echo "description $identifier is malformed, though no block of it is damaged"
                costs+="$identifier "
                ;;
            *) fail "the program printed what it never should" ;;
        esac
    done
}

# Says of every block whether it is damaged, and of every description whether it can be read.
check_library() {
    local said good=$'^answer 0\n(block [1-9][0-9]* costs [0-9]+\n)*$' refused=$'^answer (4[012])\n$' index=() position lost
    ask_words 1 0 "$work/file"
    index=("${words[@]}")
    ask 3 0 "$work/file"
    said=$(cat "$work/said" && echo end)
    said=${said%end}
    [[ ! $said =~ $refused ]] || refuse "${BASH_REMATCH[1]}"
    [[ $said =~ $good && $number = 0 ]] || fail "the program printed what it never should"
    local identifiers=()
    for ((position = 0; position < ${#index[@]}; position += 2)); do
        identifiers+=("${index[position]}")
    done
    say_damaged >"$work/answer"
    say_malformed "${identifiers[@]}" >>"$work/answer"
    read -ra lost <<<"$costs"
    echo "$(counted "${#identifiers[@]}" description), ${#lost[@]} lost" >>"$work/answer"
    print_all "$((${#lost[@]} > 0))" <"$work/answer"
}

# What is wrong with the formula of a line, by what the program printed, $1.
formula_fault() {
    case "$1" in
        'answer 20 byte '*) echo "no formula can go on at byte ${1#answer 20 byte }" ;;
        'answer 21') echo "more than 4 disjunctions are nested in the formula" ;;
        'answer 22') echo "the formula is a clash: no structure satisfies it" ;;
        'answer 23') echo "the description of the formula has more than 1024 words" ;;
        'answer 25') echo "the formula has more than 4096 bytes" ;;
        *) return 1 ;;
    esac
}

# Sets $words to the words of the formula $2, which stands on line $1.
take_formula() {
    local said why answer=$'^answer 0 words ([0-9]+)\n([0-9 ]+)$'
    if [ "${#translator[@]}" = 0 ]; then
        build formula
        runner formula
        translator=("${run[@]}")
    fi
    said=$(printf '%s' "$2" | "${translator[@]}") || fail "the program failed"
    if [[ $said =~ $answer ]]; then
        read -ra words <<<"${BASH_REMATCH[2]}"
    else
        why=$(formula_fault "$said") || fail "the program printed what it never should"
        fail "line $1: $why"
    fi
}

# Takes the number $2 of line $1 without its leading zeros into $value.
take_number() {
    [[ $2 =~ ^0*([0-9]{1,10})$ ]] && value=$((10#${BASH_REMATCH[1]})) && [ "$value" -le 4294967295 ] ||
        fail "line $1: a number is over 4294967295"
}

# Sets $words to the words of line $1, which are the arguments after their number, $2.
take_words() {
    local at=$1 word count
    take_number "$at" "$2"
    count=$value
    words=()
    for word in "${@:3}"; do
        take_number "$at" "$word"
        words+=("$value")
    done
    [ "$count" = "${#words[@]}" ] || fail "line $at: the word count is $count, but ${#words[@]} words follow"
}

# Takes the description of line $1, whose text is $2.
take_line() {
    local blank='^ *(#.*)?$' typed='^ *([0-9]+) +([0-9][0-9 ]*)$' spelt='^ *([0-9]+) +([^ 0-9].*[^ ]|[^ 0-9]) *$' parts identifier
    [[ ! $2 =~ $blank ]] || return 0
    if [[ $2 =~ $typed ]]; then
        identifier=${BASH_REMATCH[1]}
        read -ra parts <<<"${BASH_REMATCH[2]}"
        take_words "$1" "${parts[@]}"
    elif [[ $2 =~ $spelt ]]; then
        identifier=${BASH_REMATCH[1]}
        take_formula "$1" "${BASH_REMATCH[2]}"
    else
        fail "line $1: a description is an identifier, a word count and so many words, or an identifier and a formula"
    fi
    take_number "$1" "$identifier"
    entries+=("$value" "${#words[@]}")
    lines+=("$1")
    [ "${#words[@]}" -le 1024 ] && [ "${#lines[@]}" -le 60 ] || unlisted=1
    [ -n "$unlisted" ] || printf ' %s' "${words[@]}" >>"$work/words"
}

# Takes all lines of standard input: $entries, $lines with the line of each, and the words in $work/words. Where no index can list
# them, $unlisted is set, and the words are left out.
take_lines() {
    local line at=0
    head -c $((longest_lines + 1)) >"$work/lines" 2>/dev/null || fail "the input could not be read"
    [ "$(wc -c <"$work/lines")" -le "$longest_lines" ] || fail "the input has more than $longest_lines bytes"
    [ "$(tr -d '\0' <"$work/lines" | wc -c)" = "$(wc -c <"$work/lines")" ] || fail "the input has a byte 0"
    : >"$work/words"
    while IFS= read -r line || [ -n "$line" ]; do
        at=$((at + 1))
        take_line "$at" "$line"
    done <"$work/lines"
    [ "${#lines[@]}" -gt 0 ] || fail "there was no description to put"
}

# The first line whose entry no index lists, and why.
unlisted_line() {
    local place low=0 identifier count
    for place in "${!lines[@]}"; do
        identifier=${entries[2 * place]}
        count=${entries[2 * place + 1]}
        if [ "$place" -ge 60 ]; then
            echo "line ${lines[place]}: a library has at most 60 descriptions"
        elif [ "$identifier" -gt 65535 ]; then
            echo "line ${lines[place]}: identifier $identifier is over 65535"
        elif [ "$identifier" -lt "$low" ]; then
            echo "line ${lines[place]}: identifier $identifier does not rise"
        elif [ "$count" -gt 1024 ]; then
            echo "line ${lines[place]}: a description has at most 1024 words"
        else
            low=$((identifier + 1))
            continue
        fi
        return
    done
    return 1
}

# The first line whose words are malformed: by themselves they make no library.
malformed_line() {
    local place all
    read -ra all <"$work/words" || :
    for place in "${!lines[@]}"; do
        words=("${all[@]:0:${entries[2 * place + 1]}}")
        all=("${all[@]:${#words[@]}}")
        echo "2 ${#words[@]} ${entries[*]:2 * place:2} ${words[*]}" >"$work/order"
        ask 4 0 "$work/order"
        if [ "$(head -n 1 "$work/said")" = 'answer 45' ]; then
            echo "line ${lines[place]}: the words are malformed"
            return
        fi
    done
    return 1
}

# Why the library is not written, by the first line that the program printed, $1.
put_fault() {
    case "$1" in
        'answer 45') malformed_line ;;
        'answer 47') unlisted_line ;;
        *) return 1 ;;
    esac
}

# Makes the library: its bytes go to $work/file.
make_library() {
    local first asked=("${entries[@]}") count why
    count=$(wc -w <"$work/words")
    if [ -n "$unlisted" ]; then
        asked=("${entries[@]:0:122}")
        count=0
        : >"$work/words"
    fi
    { echo "${#asked[@]} $count ${asked[*]}" && cat "$work/words"; } >"$work/order"
    ask 4 0 "$work/order"
    first=$(head -n 1 "$work/said" | tr -d '\0')
    if [[ $first =~ ^answer\ 0\ bytes\ ([1-9][0-9]*)$ ]]; then
        bytes=${BASH_REMATCH[1]}
        [ "$(wc -c <"$work/said")" = $((${#first} + 1 + bytes)) ] || fail "the program printed what it never should"
        tail -c "$bytes" "$work/said" >"$work/file" || fail "there is no space for the library"
    else
        why=$(put_fault "$first") || fail "the program printed what it never should"
        fail "number ${first#answer }: $why"
    fi
}

# Puts $work/file in the place of $library: written to another name beside it, read back, and renamed.
place_library() {
    local target=$1
    made=$(mktemp "$target.XXXXXX" 2>/dev/null) || fail "no file can be made beside $library"
    if [ -e "$target" ]; then
        chmod --reference="$target" "$made"
    else
        chmod "$(printf '%o' $((0666 & ~$(umask))))" "$made"
    fi
    cat "$work/file" >"$made" 2>/dev/null && sync "$made" 2>/dev/null || fail "$library could not be written; it is as it was"
    cmp -s "$work/file" "$made" || fail "$library could not be read back; it is as it was"
    ask_words 1 0 "$made"
    [ "$number" = 0 ] && [ "${words[*]}" = "${entries[*]}" ] || fail "$library could not be read back; it is as it was"
    mv -fT "$made" "$target" 2>/dev/null || fail "$library could not be put in its place; it is as it was"
    made=
}

put_library() {
    local target bytes entries=() lines=() unlisted='' translator=()
    library=$1
    [ ! -d "$library" ] || fail "$library is a directory"
    [ ! -e "$library" ] || [ -f "$library" ] || fail "$library is no plain file"
    target=$(readlink -f "$library") || fail "there is no folder for $library"
    take_input
    take_lines
    make_library
    place_library "$target"
    echo "$(counted "${#lines[@]}" description) in $((bytes / 512)) blocks" >"$work/answer"
    print_all 0 "$library is written, but the answer could not be printed" <"$work/answer"
}

# Lists a library, gets a description of it, puts one, or checks one.
library() {
    local way=${1-} wrong='' library number words costs value librarian=()
    case "$way:$#" in
        list:2 | get:3 | put:2 | check:2) ;;
        list:* | put:* | check:*) wrong="library $way takes one file: ./bublastyr library $way FILE" ;;
        get:*) wrong="library get takes a file and an identifier: ./bublastyr library get FILE IDENTIFIER" ;;
        *) wrong="library takes list, get, put or check: ./bublastyr library list FILE" ;;
    esac
    [ -z "$wrong" ] || fail "$wrong"
    build librarian
    runner librarian
    librarian=("${run[@]}")
    work=$(mktemp -d)
    LC_ALL=C
    [ "$way" = put ] || read_library "$2"
    case "$way" in
        list) list_library ;;
        get) get_description "$3" ;;
        put) put_library "$2" ;;
        check) check_library ;;
    esac
}
