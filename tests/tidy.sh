#!/usr/bin/env bash
# The program `tidy` and the script that runs it: the examples, the exit statuses, and many texts, valid and damaged, against the
# second program. The script is that of ./layouts, whose own rules tests/layouts.sh tries. Builds the program where that is needed.
# CC, SEED and TEXTS (how many) may be set.
set -euo pipefail
cd "$(dirname "$0")/.."
seed=${SEED:-1} texts=${TEXTS:-600}
. tests/command.sh

# The first run builds the program, which rt then runs.
./tidy examples/triangle.col >"$out/stdout" 2>"$out/stderr" || fail "the first run: $(cat "$out/stderr")"
export TMPDIR=$out/tmp # where nothing may be left

# ---- the script is that of ./layouts, with another name in it ----
code() { grep -v '^# ' "$1"; }
[[ $(code layouts | sed 's/^name=layouts$/name=tidy/') == "$(code tidy)" ]] || fail './tidy is another script than ./layouts'
passed

# ---- the examples: the text, a sentence with the counts, and the same text again ----
had='^tidy: the text had [0-9]* comment lines\?, [0-9]* repeated edges\? and [0-9]* lines\? with the larger vertex first$'
none='^tidy: the text had 0 comment lines, 0 repeated edges and 0 lines with the larger vertex first$'
one_line() { [[ $(wc -l <"$out/stderr") -eq 1 ]] || fail "more than a sentence: $(cat "$out/stderr")"; }
for file in examples/*.tidy; do
    gives 0 "$had" ./tidy "${file%.tidy}.col"
    one_line
    cmp "$out/stdout" "$file" || fail "$file: another output"
    gives 0 "$none" ./tidy "$file"
    cmp "$out/stdout" "$file" || fail "$file: tidied again, it is another text"
    ./layouts "$file" | tail -n 1 >"$out/totals"
    ./layouts "${file%.tidy}.col" | tail -n 1 | cmp - "$out/totals" || fail "$file: the tidied file has other layouts"
done
gives 0 '5 comment lines, 7 repeated edges and 7 lines with' ./tidy examples/sites.col
printf 'c\np edge 2 2\ne 1 2\ne 2 1' >"$out/text"
gives 0 '^tidy: the text had 1 comment line, 1 repeated edge and 1 line with the larger vertex first$' ./tidy "$out/text"
[[ $(cat "$out/stdout") == $'p edge 2 1\ne 1 2' ]] || fail 'a small text'
gives 2 '^tidy: refused: line 4: an edge from a vertex to itself, or a vertex that was not declared (13)$' ./tidy examples/refused.col
[[ $(cat "$out/stdout") == 'refused 13 line 4' ]] || fail 'a refusal'
one_line

# ---- arguments and files ----
gives 0 '' ./tidy --help
gives 0 '' ./tidy --version
[[ $(cat "$out/stdout") =~ ^tidy,\ Vayudrit\ [0-9a-zA-Z].*proved\ by\ .*logic\ [0-9a-f] ]] || fail "--version: $(cat "$out/stdout")"
gives 1 'there is no option --all; ' ./tidy --all
gives 1 'no such file' ./tidy "$out/missing"
gives 1 'one file at a time' ./tidy examples/triangle.col examples/full4.col
from() { ./tidy <"$1"; }
gives 0 "$had" from examples/full4.col
gives 1 'could not be read' from examples # a folder can be opened and not be read
gives 2 'refused: there is no p line (11)' from /dev/null
closed_input() { ./tidy <&-; }
gives 1 'standard input is closed' closed_input
text_of() { printf 'c %0*d\n' $(($1 - 20)) 0 && printf 'p edge 2 1\ne 1 2\n'; }
text_of 32768 >"$out/text"
gives 0 '1 comment line,' ./tidy "$out/text"
text_of 32769 >"$out/text"
gives 2 'refused: the text is longer than 32,768 bytes (15)' ./tidy "$out/text"

# ---- descriptors that are closed, full or broken ----
full() { ./tidy "$1" >/dev/full; }
gives 1 'could not be written' full examples/sites.col
gives 1 'could not be written' full examples/refused.col
closed_output() { ./tidy examples/sites.col >&-; }
gives 1 'standard output is closed' closed_output
# nobody reads: by the signal, or where that is ignored by the write that fails
broken() { { sleep 0.3 && env "$1" ./tidy examples/sites.col || echo "$?" >"$out/status"; } 2>"$out/words" | :; return "$(cat "$out/status")"; }
gives 1 '' broken --default-signal=PIPE
[[ ! -s $out/words ]] || fail "words after SIGPIPE: $(cat "$out/words")"
gives 1 '' broken --ignore-signal=PIPE
grep -q 'could not be written' "$out/words" || fail "no words for a pipe that was closed: $(cat "$out/words")"
# That nobody can read the counts changes no status.
silent() { ./tidy examples/sites.col 2>&-; }
full_words() { ./tidy examples/sites.col 2>/dev/full; }
broken_words() { { env --default-signal=PIPE ./tidy examples/sites.col 2>&1 >"$out/part" && echo 0 >"$out/status"; } | :; cat "$out/part" && return "$(cat "$out/status")"; }
for how in silent full_words broken_words; do
    echo none >"$out/status"
    gives 0 '' "$how"
    cmp "$out/stdout" examples/sites.tidy || fail "$how: another output"
done
program_full() { crates/tidy/out/tidy <examples/sites.col >/dev/full 3>"$out/told"; }
gives 0 'could not be written' program_full # in words: the program's own exit status does not tell
[[ ! -s $out/told ]] || fail 'something is told of an output that was not taken'
# What no contract can say: to which descriptors the program writes.
for file in examples/*.col; do
    crates/tidy/out/tidy <"$file" >"$out/stdout" 2>"$out/stderr" 3>"$out/told"
    told=$(head -n 1 "$out/stdout")
    if [[ $told == refused* ]]; then [[ ! -s $out/stderr ]] || fail "$file: words of the program"; else told=ended && grep -q "$had" "$out/stderr"; fi
    [[ $(cat "$out/told") == "$told" ]] || fail "$file: told is $(cat "$out/told")"
done
passed

# ---- the script with other programs, in a copy: the one word "ended" is an end, and nothing else is ----
copy_of tidy
with_program 0 '' 'echo p edge 2 1; echo ended >&3'
with_program 1 'did not end' 'echo ended'
with_program 1 'did not end' 'printf ended >&3'
with_program 1 'did not end' 'echo ended more >&3'
with_program 1 'did not end' 'echo >&3; echo ended >&3'
with_program 1 'did not end' 'echo ended >&3; echo more >&3'
with_program 1 'did not end' 'echo spent >&3'
with_program 1 'did not end' 'echo vars 7 eqs 7 >&3; echo points 2187 additions 4365 found 12 ended >&3'
with_program 2 'refused: there is no p line (11)' 'echo refused 11 line 0 >&3'

# ---- signals while it waits for its input: nothing is left of it, and nothing written ----
mkfifo "$out/pipe"
killed() { # SIGNAL WHOM
    local script shell='' program='' whom status=0
    sleep 30 >"$out/pipe" &
    local writer=$!
    env --default-signal ./tidy <"$out/pipe" >"$out/part" 2>/dev/null &
    script=$!
    find_program() { shell=$(child_of "$script") && program=$(child_of "${shell:-none}") && [[ -n $program && $(cat "/proc/$program/comm" 2>/dev/null) == tidy ]]; }
    until_true find_program || fail 'the program did not begin'
    whom=${!2}
    kill "-$1" "$whom"
    wait "$script" || status=$?
    until_true gone "$program" || { kill -KILL "$program" && fail 'the program runs on'; }
    kill "$writer" 2>/dev/null
    [[ ! -s $out/part ]] || fail "something is written after $1"
    return "$status"
}
ulimit -c 0
for signal in HUP/129 INT/130 QUIT/131 USR1/138 TERM/143; do gives "${signal#*/}" '' killed "${signal%/*}" script; done
for whom in shell program; do gives 1 '' killed KILL "$whom"; done
[[ -z $(ls "$TMPDIR") ]] || fail "left behind: $(ls "$TMPDIR")"

# ---- many texts: the program against the second program ----
compile -O2 tests/reference/{tidy_model,tidy,reference}.c -o "$out/model"
compile "${sanitize[@]}" tests/reference/{tidy_model,tidy,reference}.c -o "$out/checked"
compile "${sanitize[@]}" tests/reference/{graph_texts,reference}.c -o "$out/graph_texts"
"$out/graph_texts" "$seed" "$texts" "$out/texts" 20
for ((k = 1; k <= texts; k++)); do
    "$out/model" <"$out/texts/$k" >"$out/expected/$k" 2>"$out/expected/$k.counts"
    ((k % 20 != 0)) || "$out/checked" <"$out/texts/$k" 2>/dev/null | cmp - "$out/expected/$k"
done

# agrees PROGRAM: on all texts, also in the counts; says the first one where it does not
agrees() {
    local k
    for ((k = 1; k <= texts; k++)); do
        "$1" <"$out/texts/$k" >"$out/stdout" 2>"$out/stderr" || true
        tr -cs '0-9\n' ' ' <"$out/stderr" | sed 's/^ //; s/ $//' >"$out/counts"
        cmp -s "$out/stdout" "$out/expected/$k" && cmp -s "$out/counts" "$out/expected/$k.counts" && continue
        echo "text $k of seed $seed differs (SEED=$seed TEXTS=$k shows it again). Expected and written:"
        diff -a "$out/expected/$k" "$out/stdout" | head -n 6 || true
        diff -a "$out/expected/$k.counts" "$out/counts" || true
        return 1
    done
}
agrees crates/tidy/out/tidy >&2 || fail 'the program and the second program differ'
passed
for ((k = 1; k <= texts && k <= 20; k++)); do # the script too: the same bytes, and the status for them
    wanted=$(($(grep -c '^refused' "$out/expected/$k" || true) * 2))
    [[ $(status_of ./tidy "$out/texts/$k") -eq $wanted ]] || fail "./tidy on text $k of seed $seed: another status"
    cmp "$out/stdout" "$out/expected/$k" || fail "./tidy on text $k of seed $seed: another output"
    passed
done

# Every planted fault has to be noticed: programs that go wrong before or after the second program, in its text or its counts.
faults=0
while IFS='|' read -r name before after counts; do
    printf '#!/bin/sh\n%s | %s 2>"$0.counts" | %s\n%s <"$0.counts" >&2\n' "${before:-cat}" "$out/model" "${after:-cat}" "${counts:-cat}" >"$out/faulty"
    chmod +x "$out/faulty"
    ! agrees "$out/faulty" >"$out/noticed" || fail "not noticed: $name"
    faults=$((faults + 1))
done <<'END'
repeats are kept||awk '{ print } /^e/ && !twice { print; twice = 1 }'|
the order is by the second vertex||{ read -r p; echo "$p"; sort -k 3,3n -k 2,2n; }|
vertices are ordered as words||{ read -r p; echo "$p"; sort -k 2,2 -k 3,3; }|
the larger vertex is first||awk '/^e/ { $0 = "e " $3 " " $2 } 1'|
edges keep the order of the lines||{ read -r p; echo "$p"; sort -r; }|
the declared number of lines is written||awk '/^p/ { $4++ } 1'|
the last line feed is not written||head -c -1|
a comment is written||sed '1i c tidied'|
an edge is lost||sed '$d'|
comments are counted with repeats|||awk '{ $2 += $1 } 1'
comments are not counted|||awk '{ $1 = 0 } 1'
repeats are counted without those that are turned|||awk '$3 { $2 = 0 } 1'
turned lines that repeat are not counted|||awk '$2 { $3 = 0 } 1'
repeats and turned lines are exchanged|||awk '{ print $1, $3, $2 }'
the last line is not read|sed '$d'||
repeats are dropped before they are counted|awk '!(/^e / && seen[$0]++)'||
nothing is written||cat >/dev/null|
END
taken=$(cat "$out"/expected/*.counts | wc -l)
awk '$2 > 0 && $3 > 0 && $1 > 0 { many++ } END { exit many < 20 }' <(cat "$out"/expected/*.counts) || fail "too few texts of seed $seed have all that is counted"
echo "tidy: $texts texts agree ($taken tidied, $((texts - taken)) refused)"
echo "tidy: $checks checks passed, $faults planted faults noticed"
