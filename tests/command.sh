# shellcheck shell=bash
# What the tests of every command use; sourced. Sets `out`, a folder that is removed at the end, and `checks`.
out=$(mktemp -d)
trap 'rm -rf "$out"' EXIT
mkdir "$out/tmp" "$out/texts" "$out/expected"

checks=0
fail() { echo "$0: $*" >&2; exit 1; }
passed() { checks=$((checks + 1)); }

# status_of COMMAND...: its exit status; what it wrote is in $out/stdout and $out/stderr
status_of() {
    local status=0
    "$@" >"$out/stdout" 2>"$out/stderr" || status=$?
    echo "$status"
}

# gives STATUS WORDS COMMAND...: the exit status, and the words on standard error ("" for none at all)
gives() {
    local wanted=$1 words=$2 status
    shift 2
    status=$(status_of "$@") || fail "$*: $(head -n 3 "$out/stderr")"
    [[ $status -eq $wanted ]] || fail "$*: status $status and not $wanted: $(head -n 3 "$out/stderr")"
    if [[ -n $words ]]; then
        grep -qe "$words" "$out/stderr" || fail "$*: no words \"$words\": $(head -n 3 "$out/stderr")"
    elif [[ -s $out/stderr ]]; then
        fail "$*: unexpected words: $(head -n 3 "$out/stderr")"
    fi
    passed
}

# copy_of NAME: the command in the folder `copy`, where its program is another one
copy_of() {
    command=$1 copy=$out/copy
    mkdir -p "$copy/crates/$command"/{src,out}
    cp -r "$command" commands "$copy"
    printf 'base:\n%s: base io\nother: base\n' "$command" >"$copy/crates.txt"
}
# with_program STATUS WORDS LINES: what the copy gives with a program that is these lines of shell
with_program() {
    printf '#!/bin/sh\n%s\n' "$3" >"$copy/crates/$command/out/$command"
    chmod +x "$copy/crates/$command/out/$command"
    gives "$1" "$2" "$copy/$command" examples/triangle.col
}

until_true() { local turn; for ((turn = 0; turn < 200; turn++)); do ! "$@" || return 0; sleep 0.02; done; return 1; }
gone() { ! kill -0 "$1" 2>/dev/null; }
child_of() { awk -v parent="$1" '{ sub(/.*\) /, "") } $2 == parent { split(FILENAME, part, "/"); print part[3] }' /proc/[0-9]*/stat 2>/dev/null | head -n 1 || :; }

compile() { ${CC:-cc} -std=c99 -Wall -Wextra -Werror "$@"; }
sanitize=(-g -O1 "-fsanitize=address,undefined" -fno-sanitize-recover=all)
