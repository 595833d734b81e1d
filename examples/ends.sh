# What the tests of the commands share. Read by `exit_status`, `formula_status` and `explain_status`, where $name is the command
# that is tested.
work=$(mktemp -d)
trap 'rm -rf "$work"' EXIT

fail() {
    echo "$(basename "$0"): $1" >&2
    exit 1
}

# The command from $4 on exits with $1, and prints $2 to standard output and $3 to standard error, with \n for newlines.
cases=0
ends() {
    local status=$1 printed=$2 complaint=$3 found=0
    shift 3
    "$@" >"$work/out" 2>"$work/err" || found=$?
    [ "$found" = "$status" ] || fail "$* exits with $found, not $status"
    printf '%b' "$printed" | cmp - "$work/out" || fail "$* prints something else"
    printf '%b' "$complaint" | cmp - "$work/err" || fail "$* complains with: $(cat "$work/err")"
    cases=$((cases + 1))
}

# The command from $2 on exits with 2 and prints nothing but the sentence $1, to standard error.
complains() {
    ends 2 '' "$name: $1\n" "${@:2}"
}

# So many times $2.
repeated() {
    local copies
    printf -v copies "%*s" "$1" ''
    printf '%s' "${copies// /"$2"}"
}

# A copy of the commands over a kit that builds nothing, to be run by `over_the_kit`.
kit=$work/kit
copy=$work/copy
copy_commands() {
    mkdir -p "$kit/bin" "$copy/crates"
    cp -r meet bublastyr commands "$copy/"
    touch "$copy/crates.txt"
    printf '#!/bin/sh\nexit 1\n' >"$kit/bin/rt"
    chmod +x "$kit/bin/rt"
}
over_the_kit() { PATH=$kit/bin:$PATH "$copy/$1" "${@:2}"; }

# In the copy, a program $1 that reads its input, prints $SAYS and ends as $ENDS says.
copy_program() {
    mkdir -p "$copy/crates/$1/out"
    printf '#!/bin/sh\ncat >/dev/null\nprintf "$SAYS"\neval "$ENDS"\n' >"$copy/crates/$1/out/$1"
    chmod +x "$copy/crates/$1/out/$1"
    export SAYS ENDS
}

# In the copy, the command from $2 on for the program $1.
stand_in() {
    mkdir -p "$copy/crates/$1/out"
    printf '#!/bin/sh\nexec %s\n' "$(printf '%q ' "${@:2}")" >"$copy/crates/$1/out/$1"
    chmod +x "$copy/crates/$1/out/$1"
}

# What a command says where the program $1 cannot be built.
not_built() {
    printf '%s' "proving and building what it runs, 1 crates; the first time takes some minutes\n$name: the program could not be" \
        " built; what the prover said is in out/$1.log"
}
