# What the commands at the top share: building a program, and running it. Read by `bublastyr` and `meet`, after which
# $name is the command that speaks and $top the project's folder.

# Says what is wrong, and ends: nothing was decided.
fail() {
    echo "$name: $1" >&2
    exit 2
}

# The crates that $1 stands on, itself among them, as crates.txt has them.
needed() {
    awk -v want="$1" '
        /^[a-z]/ {
            crate = $1; sub(/:$/, "", crate); listed[crate] = 1
            for (i = 2; i <= NF; i++) if ($i !~ /:$/) on[crate] = on[crate] " " $i
        }
        END {
            count = 1; queue[1] = want; seen[want] = 1
            for (at = 1; at <= count; at++) {
                print queue[at]
                parts = split(on[queue[at]], deps, " ")
                for (i = 1; i <= parts; i++)
                    if (!(deps[i] in seen) && deps[i] in listed) { seen[deps[i]] = 1; queue[++count] = deps[i] }
            }
        }' "$top/crates.txt"
}

# Seconds as people say them.
spoken_time() {
    if [ "$1" -lt 60 ]; then
        echo "$1 s"
    else
        echo "$(($1 / 60)) min $(($1 % 60)) s"
    fi
}

# Goes through the lines that `rt` prints and keeps one line of progress on a terminal; elsewhere it says nothing.
progress() {
    local total=$1 begun=$SECONDS ready=0 elapsed left line
    while IFS= read -r line; do
        case "$line" in
            "logic=proved "*) ready=$((ready + 1)) ;;
            *) continue ;;
        esac
        [ -t 2 ] || continue
        elapsed=$((SECONDS - begun))
        left=""
        [ "$ready" -lt 3 ] || [ "$elapsed" -lt 5 ] || left=", at most about $(spoken_time $((elapsed * (total - ready) / ready))) left"
        printf '\r\033[K%s: proving what it runs: crate %d of at most %d, %s%s' \
            "$name" "$ready" "$total" "$(spoken_time "$elapsed")" "$left" >&2
    done
    [ ! -t 2 ] || printf '\r\033[K' >&2
}

# Whether the file $1 is there, and no crate has changed since it was built.
is_new() {
    [ -e "$1" ] && [ -z "$(find "$top/crates.txt" "$top"/crates/*/{src,specs,proofs} -newer "$1" -print -quit 2>/dev/null)" ]
}

# Proves and builds the program $1, if something has changed since it was built. What the prover says goes to a file; a
# crate that is proved stays so, and a run that was interrupted goes on where it was. `rt run` also runs the program once, on no input.
build() {
    local built=$top/crates/$1/out/$1 log=$top/out/$1.log total
    command -v rt >/dev/null || fail "rt, the command of the Rattle kit, is not in the path"
    if is_new "$built"; then
        return
    fi
    mkdir -p "$top/out"
    total=$(needed "$1" | wc -l)
    echo "$name: proving and building what it runs, $total crates; the first time takes some minutes" >&2
    if ! (cd "$top/crates/$1" && rt run && touch "out/$1") </dev/null 2>&1 >/dev/null | tee "$log" | progress "$total" \
        || [ ! -x "$built" ]; then
        fail "the program could not be built; what the prover said is in out/$1.log"
    fi
}

# How a program that was built is run. Sets $run.
runner() {
    run=("$top/crates/$1/out/$1")
}

# Takes the file $1 for standard input, if one is given.
take_input() {
    if [ $# = 1 ]; then
        [ -e "$1" ] || fail "there is no file $1"
        [ ! -d "$1" ] || fail "$1 is a directory"
        { exec <"$1"; } 2>/dev/null || fail "$1 cannot be read"
    fi
    { : 3<&0; } 2>/dev/null || fail "standard input is closed"
}
