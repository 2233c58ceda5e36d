#!/usr/bin/env bash
# The program `layouts` and the script that runs it: the examples, the exit statuses, and many
# texts, valid and damaged, against the second program. Builds the program where that is needed.
# CC, SEED and TEXTS (how many) may be set.
set -euo pipefail
cd "$(dirname "$0")/.."
seed=${SEED:-1} texts=${TEXTS:-612}
. tests/command.sh

# The first run builds the program, which rt then runs.
./layouts examples/triangle.col >"$out/stdout"
export TMPDIR=$out/tmp # where nothing may be left

# ---- the examples ----
for file in examples/*.col; do
    case $(head -n 1 "${file%.col}.out") in
    vars*) gives 0 '' ./layouts "$file" ;;
    refused*) gives 2 '^layouts: refused: ' ./layouts "$file" ;;
    *) fail "${file%.col}.out is no output" ;;
    esac
    cmp "$out/stdout" "${file%.col}.out" || fail "$file: another output"
done
document() { printf 'p edge 2 1\ne 1 2\n'; } # document 01's example
[[ $(document | ./layouts | tr '\n' ';') == 'vars 2 eqs 1;1 1 10;2 2 20;3 5 21;4 3 01;6 7 12;8 6 02;points 9 additions 14 found 6 ended;' ]] ||
    fail "document 01's example"
passed

# ---- the script: arguments, files, sizes ----
script() { ./layouts "$@"; }
from() { ./layouts <"$1"; }
gives 0 '' script --help
gives 0 '' script -h
gives 1 'there is no option --all; ' script --all
[[ $(wc -l <"$out/stderr") -eq 1 ]] || fail 'more than a sentence for a typo'
gives 0 '' script --version
[[ $(cat "$out/stdout") =~ Vayudrit\ [0-9a-zA-Z].*proved\ by\ .*logic\ [0-9a-f] ]] || fail "--version: $(cat "$out/stdout")"
gives 1 'one file at a time' script examples/triangle.col examples/full4.col
gives 1 'no such file' script "$out/missing"
gives 1 'no such file' script $'none\e[31m'
! grep -q $'\e' "$out/stderr" || fail 'a control character of a name is sent to the terminal'
for locale in C C.UTF-8; do # U+202E, from which on a terminal writes backwards
    gives 1 "'a.342.200.256b': there is no such file" env LC_ALL="$locale" ./layouts $'a\342\200\256b'
done
gives 1 '^layouts: an empty name' script ''
gives 1 'folder' script examples
gives 0 '' script -- examples/full4.col
dash() { ./layouts "$@" - <examples/full4.col; }
gives 0 '' dash
gives 0 '' dash --
gives 1 'could not be read' from examples # a folder can be opened and not be read
closed_input() { ./layouts "$@" <&-; }
gives 1 'standard input is closed' closed_input
gives 0 '' closed_input examples/full4.col
program_closed_input() { crates/layouts/out/layouts <&-; }
gives 0 . program_closed_input # in words: the program's own exit status does not tell
[[ ! -s $out/stdout ]] || fail "a closed input: $(head -n 1 "$out/stdout")"
gives 2 'refused: there is no p line (11)' from /dev/null
[[ $(cat "$out/stdout") == 'refused 11 line 0' ]] || fail 'an empty text'
printf 'p edge 2 1\r\ne 1 2\r\n' >"$out/text"
gives 2 'line 1: .*carriage returns.*byte order mark.* (10)' script "$out/text"
other_shell() { sh layouts "$1"; }
gives 0 '' other_shell examples/full4.col
gives 2 'refused: ' other_shell examples/refused.col
gives 1 'no such file' other_shell "$out/missing"
# A shell that dies of too little memory is no refusal: from none to enough of it.
starved() { (ulimit -v "$1" && ./layouts examples/full4.col) >/dev/null 2>&1 || echo "$?"; }
for ((k = 2400; k <= 6000; k += 120)); do [[ $(starved "$k") != 2 ]] || fail "status 2 with $k kB of memory"; done
passed
# Nor is one that has too few descriptors (with 10 or fewer a plain shell dies before it reads the script) or cannot start another.
few_descriptors() {
    local fd
    for fd in /dev/fd/*; do ((${fd##*/} < 3 || ${fd##*/} == 255)) || eval "exec ${fd##*/}>&-"; done
    ulimit -n "$1" && ./layouts examples/refused.col
}
for ((k = 11; k <= 20; k++)); do
    (few_descriptors "$k") >"$out/stdout" 2>"$out/stderr" && fail "$k descriptors: status 0" || status=$?
    ((status == 1)) || grep -q '^layouts: refused: ' "$out/stderr" || fail "$k descriptors: status $status: $(cat "$out/stderr")"
done
((status == 2)) || fail "status $status with 20 descriptors"
passed

# text_of BYTES: document 01's example after a comment that makes it so long
text_of() { printf 'c %0*d\n' $(($1 - 20)) 0 && document; }
text_of 32768 >"$out/text"
[[ $(wc -c <"$out/text") -eq 32768 ]] || fail 'the text is not as long as it should be'
gives 0 '' script "$out/text"
text_of 32769 >"$out/text"
gives 2 'refused: the text is longer than 32,768 bytes (15)' script "$out/text"
[[ $(cat "$out/stdout") == 'refused 15 line 0' ]] || fail '32,769 bytes'
elsewhere() { (cd examples && ../layouts full4.col); }
gives 0 '' elsewhere
linked() { ln -sf "$PWD/layouts" "$out/linked" && "$out/linked" <examples/full4.col; }
gives 0 '' linked

# ---- descriptors that are closed, full, not read to their end, or do not wait ----
full() { ./layouts "$1" >/dev/full; }
gives 1 'could not be written' full examples/triangle.col
gives 1 'could not be written' full examples/refused.col
closed_output() { ./layouts examples/triangle.col >&-; }
gives 1 'standard output is closed' closed_output
for option in --help --version; do
    option_closed() { ./layouts "$option" >&-; }
    gives 1 'standard output is closed' option_closed
    option_full() { ./layouts "$option" >/dev/full; }
    gives 1 'did not end' option_full
done
# The caller's own descriptors are files as good as any; those that the caller doesn't have are none, and nothing is waited for.
on_descriptor() { eval "timeout 20 ./layouts /dev/fd/$1 $1<examples/triangle.col"; }
for k in 3 4 9 10 11 12; do
    gives 0 '' on_descriptor "$k"
    cmp "$out/stdout" examples/triangle.out || fail "descriptor $k"
done
no_descriptor() { eval "timeout 20 ./layouts /dev/fd/$1 $1<&-"; }
for k in {3..15}; do gives 1 'no such file' no_descriptor "$k"; done
none_free() { ./layouts examples/triangle.col 3<&0 4<&0 5<&0 6<&0 7<&0 8<&0 9<&0; }
gives 1 'descriptors 3 to 9' none_free
all_closed() { ./layouts examples/triangle.col <&- >&- 2>&-; }
gives 1 '' all_closed
program_full() { crates/layouts/out/layouts <examples/triangle.col >/dev/full 3>"$out/told"; }
gives 0 . program_full
[[ ! -s $out/told ]] || fail 'something is told of an output that was not taken'
# What no contract can say: to which descriptors the program writes. Told is the output without its layouts.
for file in examples/*.col; do
    crates/layouts/out/layouts <"$file" >"$out/stdout" 2>"$out/stderr" 3>"$out/told"
    cmp "$out/stdout" "${file%.col}.out" || fail "$file: another output of the program"
    [[ $(cat "$out/told") == "$(grep -v '^[0-9]' "$out/stdout")" && ! -s $out/stderr ]] || fail "$file: told is $(cat "$out/told")"
done
passed
silent_refusal() { ./layouts examples/refused.col 2>&-; }
gives 2 '' silent_refusal
full_refusal() { ./layouts examples/refused.col 2>/dev/full; }
gives 2 '' full_refusal
broken_refusal() { # nobody reads the words
    { env --default-signal=PIPE ./layouts examples/refused.col 2>&1 >/dev/null || echo "$?" >"$out/status"; } | :
    return "$(cat "$out/status")"
}
gives 2 '' broken_refusal
appended() { echo before && ./layouts examples/full4.col; }
echo first >"$out/file" && appended >>"$out/file"
[[ $(cut -d ' ' -f 1 "$out/file" | tr '\n' ' ') == 'first before vars points ' ]] || fail 'output that is appended'
passed
${CC:-cc} -std=c99 -D_DEFAULT_SOURCE -Wall -Wextra -Werror tests/slow-reader.c -o "$out/slow-reader"
printf 'p edge 13 1\ne 1 2\n' >"$out/long" # more lines than a pipe holds
./layouts "$out/long" >"$out/whole" || fail 'a long list'
[[ $(tail -n 1 "$out/whole") == 'points 1594323 additions 3188631 found 1062882 ended' ]] || fail 'a long list'
slow() { "$out/slow-reader" "$@" ./layouts "$out/long"; } # BYTES (0: all of them) SIGPIPE-ignored
for ignored in 0 1; do
    gives 0 '' slow 0 "$ignored" # a pipe that does not wait, read slowly
    cmp "$out/stdout" "$out/whole" || fail 'a pipe that does not wait: another output'
    words=''
    ((ignored == 0)) || words='could not be written'
    for bytes in 1 13 5000 1000000; do gives 1 "$words" slow "$bytes" "$ignored"; done # closed after so many bytes
done
slow_program() { "$out/slow-reader" 0 0 crates/layouts/out/layouts <"$out/long" 3>"$out/told"; } # the program itself, too
gives 0 '' slow_program
cmp "$out/stdout" "$out/whole" || fail 'a pipe that does not wait: another output of the program'
# The command waits without work: two seconds for its input or its reader, with pipes that do not wait.
seconds_used() { local TIMEFORMAT='%U %S' && { time "$@" >"$out/stdout" 2>"$out/stderr"; } 2>&1; }
waits() { # COMMAND: hundredths of a second of the processor
    local used
    used=$(seconds_used "$@" | awk '{ printf "%d", 100 * ($1 + $2) }')
    ((used < 30)) || fail "$*: $used hundredths of a second of work in two seconds of waiting"
    passed
}
printf 'p edge 10 1\ne 1 2\n' >"$out/text"
late_reader() { PAUSE=2 "$out/slow-reader" 0 0 ./layouts "$out/text" </dev/null; }
waits late_reader
[[ $(tail -n 1 "$out/stdout") == *' found 39366 ended' ]] || fail 'a reader that comes late'
late_writer() { { sleep 2 && document; } | PAUSE=0 "$out/slow-reader" 0 0 ./layouts; }
waits late_writer
[[ $(tail -n 1 "$out/stdout") == *' found 6 ended' ]] || fail 'an input that comes late'

# ---- progress: on a terminal alone, on standard error alone, and gone before anything else is written ----
printf 'p edge 16 6\ne 1 2\ne 1 3\ne 1 4\ne 2 3\ne 2 4\ne 3 4\n' >"$out/text"
on_terminal() { # standard error is a terminal, whose contents are kept
    command script -qec "./layouts '$out/text' >'$out/written'" /dev/null </dev/null >"$out/terminal"
}
gives 0 '' on_terminal
[[ $(cat "$out/terminal") == $'\rpoints 43046721 of 43046721 found 0\r\e[K' ]] || fail "progress: $(cat -v "$out/terminal")"
[[ $(cat "$out/written") == $'vars 16 eqs 6\npoints 43046721 additions 86093424 found 0 ended' ]] || fail 'the output beside progress'
crates/layouts/out/layouts <"$out/text" 2>"$out/stderr" >"$out/stdout"
[[ ! -s $out/stderr ]] || fail 'progress without a terminal'
in_pipe() { command script -qec "./layouts '$out/text' | cat" /dev/null </dev/null >"$out/terminal"; }
gives 0 '' in_pipe # whoever reads the pipe may write on the terminal, too
! grep -q 'of 43046721' "$out/terminal" || fail 'progress beside a pipe'
# 18 vertices in six layouts, far apart
{ echo p edge 18 33; printf 'e %d %d\n' 1 2 1 3 2 3; for ((k = 4; k <= 18; k++)); do printf 'e %d %d\n' $((k - 2)) "$k" $((k - 1)) "$k"; done; } >"$out/text"
both_on_terminal() { command script -qec "./layouts '$out/text'" /dev/null </dev/null >"$out/terminal"; }
gives 0 '' both_on_terminal
./layouts "$out/text" >"$out/stdout" || fail 'six layouts'
# what stays on the terminal once "back to the start of the line and clear it" is obeyed; progress overwrites progress alone

sed 's/\r\x1b\[K/\n/g; s/\r$//' "$out/terminal" | tr '\r' '\n' >"$out/seen"
grep -q '^points [0-9]* of 387420489 found [0-9]*$' "$out/seen" || fail 'no progress on a terminal'
grep -v -e '^points [0-9]* of 387420489 found [0-9]*$' -e '^$' "$out/seen" | cmp - "$out/stdout" || fail "progress and layouts share a line: $(cat -v "$out/terminal")"
passed

# ---- the script with other programs, in a copy: what did not end must not look ended ----
copy_of layouts
tells() { printf "echo 'vars %s eqs %s' >&3; echo 'points 2187 additions 4365 found %s ended' >&3" "$1" "$2" "$3"; } # V E FOUND
with_program 0 '' "echo vars; $(tells 7 7 12)"
with_program 1 'did not end' 'echo points 9 additions 14 found 6 ended'
with_program 1 'did not end' 'echo ended >&3'
with_program 1 'did not end' 'echo vars 7 eqs 7 >&3'
with_program 1 'did not end' 'echo points 2187 additions 4365 found 12 ended >&3'
with_program 1 'did not end' 'echo vars 7 eqs 7 >&3; printf "points 2187 additions 4365 found 12 ended" >&3'
with_program 1 'did not end' 'echo vars 7 eqs 7 >&3; echo points 2187 additions 4365 found 12 ended more >&3'
with_program 1 'did not end' 'echo vars 7 eqs 7 >&3; echo points 2187 additions 4365 found 12 spent >&3'
with_program 1 'did not end' "echo >&3; $(tells 7 7 12)"
with_program 1 'did not end' "$(tells 7 7 12); echo more >&3"
with_program 1 'did not end' 'echo refused 13 >&3'
with_program 1 'did not end' ''
with_program 1 'did not end' 'exit 2'
with_program 1 'signal 9' 'echo vars; kill -9 $$'
with_program 1 'signal 11' 'echo vars; kill -SEGV $$'
with_program 1 'did not end' 'exec 3>&-; sleep 0.1; echo vars'
# C-22: a search that ended can't have been right if its layouts are no multiple of 3 although there are few edges. It says so.
while read -r wanted vertices edges number; do
    words=
    ((wanted == 0)) || words="^layouts: the search went wrong.* $number layouts are no multiple of 3.* edges ($edges) .* vertices ($vertices)\$"
    with_program "$wanted" "$words" "echo vars; $(tells "$vertices" "$edges" "$number")"
    [[ $(cat "$out/stdout") == vars ]] || fail 'C-22: the output is not that of the program'
done <<'END'
0 7 3 12
1 7 3 13
1 7 3 14
0 7 3 0
1 7 1 10
0 7 4 13
0 6 3 13
1 20 9 3486784400
0 20 10 3486784400
END
# A shell that ends well is no search that ended well.
with_program 0 '' "echo vars; $(tells 7 7 12)"
echo 'exit 0' >"$out/environment"
gives 0 '' env BASH_ENV="$out/environment" SHELLOPTS=noexec "$copy/layouts" examples/triangle.col
[[ $(cat "$out/stdout") == vars ]] || fail 'the environment makes another command'
for part in shared status layouts; do
    : >"$copy/commands/$part.sh"
    [[ $(status_of "$copy/layouts" --help) -eq 1 ]] || fail "an empty commands/$part.sh"
    passed
    cp "commands/$part.sh" "$copy/commands"
done
# Nor is one that cannot start another a refusal.
chmod 711 "$out" && chmod -R a+rX "$copy"
no_process() {
    local as=()
    ((EUID != 0)) || as=(setpriv --reuid=65534 --regid=65534 --clear-groups)
    # shellcheck disable=SC2016
    "${as[@]}" bash -c 'ulimit -u 0 && exec "$0" /dev/null' "$copy/layouts"
}
gives 1 'fork' no_process
# --version: the commit of these sources, and not that of a repository in which they lie.
if command -v git >/dev/null; then
    git init -q "$out" 2>/dev/null && git -C "$out" -c user.name=x -c user.email=x commit -q --allow-empty -m x
    gives 0 '' "$copy/layouts" --version
    grep -q 'Vayudrit of no known commit$' "$out/stdout" || fail "--version in another repository: $(cat "$out/stdout")"
    echo 'commit abc1234' >"$copy/commands/release"
    gives 0 '' "$copy/layouts" --version
    grep -q 'Vayudrit commit abc1234$' "$out/stdout" || fail "--version of a release: $(cat "$out/stdout")"
    rm -rf "$out/.git"
fi
while IFS='|' read -r number line words; do
    with_program 2 "^layouts: refused: $words ($number)$" "echo refused $number line $line >&3"
done <<'END'
10|7|line 7: no known kind of line; .*
11|0|there is no p line
11|3|line 3: a second p line, or an e line before the p line
12|1|line 1: vertices not 1 to 20, or edges not 1 to 4,096
13|2|line 2: an edge from a vertex to itself, or a vertex that was not declared
14|0|there are fewer e lines than the p line declares
14|9|line 9: one e line more than the p line declares
15|0|the text is longer than 32,768 bytes
16|66|line 66: the 65th different edge
END

# ---- signals at random moments: to the script, and to the program ----
has_lines() { [[ $(grep -c '' "$2" 2>/dev/null) == "$1" ]]; }
is_clean() { [[ -z $(ls "$TMPDIR") && -z $(find /tmp -maxdepth 1 -name 'vayudrit.*' -newer "$out/began") ]]; }
clean() { is_clean || fail "left behind: $(ls "$TMPDIR" /tmp)"; }
printf 'p edge 20 6\ne 1 2\ne 1 3\ne 1 4\ne 2 3\ne 2 4\ne 3 4\n' >"$out/silent" # seconds without a line
: >"$out/began"
moment() { sleep "0.$((RANDOM % 4))$((RANDOM % 10))"; }
RANDOM=$seed
# killed SIGNAL WHOM [AT]: during a search, at a random moment or once the program runs; nothing is left of it when the script ends
killed() {
    local script shell='' program='' whom status=0
    env --default-signal "${ignored[@]}" ./layouts "$out/$text" >"$out/part" 2>/dev/null &
    script=$!
    find_program() { shell=$(child_of "$script") && program=$(child_of "${shell:-none}") && [[ -n $program && $(cat "/proc/$program/comm" 2>/dev/null) == layouts ]]; }
    if (($# == 3)); then until_true find_program; else moment && { find_program || :; }; fi
    whom=${!2}
    kill "-$1" "${whom:-$script}"
    wait "$script" || status=$?
    cp "$out/part" "$out/before"
    [[ -z $program ]] || until_true gone "$program" || { kill -KILL "$program" && fail 'the program runs on'; }
    [[ $1/$2 == KILL/script ]] || cmp "$out/part" "$out/before" || fail "something is written after $1 to the $2"
    return "$status"
}
printf 'p edge 20 1\ne 1 2\n' >"$out/loud" # many lines, for minutes
ulimit -c 0
ignored=()
for turn in 1 2 3; do
    text=silent
    for signal in HUP/129 INT/130 QUIT/131 USR1/138 USR2/140 PIPE/141 ALRM/142 TERM/143; do
        gives "${signal#*/}" '' killed "${signal%/*}" script
    done
    for whom in shell program; do gives 1 '' killed KILL "$whom" running; done
    text=loud
    for signal in USR1/138 USR2/140 TERM/143; do gives "${signal#*/}" '' killed "${signal%/*}" script running; done
    for whom in shell program; do gives 1 '' killed KILL "$whom" running; done
done
gives 137 '' killed KILL script running # nobody can wait then; the rest ends by itself
# At once, also where a signal that the shells use among themselves is ignored.
text=silent ignored=(--ignore-signal=USR1) began=$SECONDS
gives 143 '' killed TERM script running
((SECONDS - began <= 3)) || fail "TERM ended the command after $((SECONDS - began)) s"
ignored=()
clean

# ---- the build: what is missing or older than its sources and nothing else, once, and it ends with the script ----
mkdir "$copy/path"
cat >"$copy/path/rt" <<'END'
#!/bin/sh
[ "$1" = run ] || exit 2
top=../..
echo "rt $*" >>$top/built && cat
[ ! -e $top/fail ] || { echo the reason; exit 1; }
echo $$ >$top/running && sh -c 'echo $$ >>../../running; exec sleep "$0"' "$(cat $top/slow 2>/dev/null || echo 0)"
mktemp >/dev/null
echo 'crate base: modules loaded=1 checked=1'
printf '#!/bin/sh\necho %s; echo vars 7 eqs 7 >&3; echo %s >&3\n' "'points 1 additions 0 found 0 ended'" "'points 1 additions 0 found 0 ended'" >out/layouts
chmod +x out/layouts
END
chmod +x "$copy/path/rt"
with_rt() { PATH=$copy/path:$PATH "$copy/layouts" <examples/triangle.col; }
mkdir "$out/tools"
for tool in bash env setpriv dirname readlink mktemp find rm cat; do ln -s "$(command -v "$tool")" "$out/tools"; done
without_rt() { PATH=$out/tools "$copy/layouts" <examples/triangle.col; }
times_built() { [[ $(wc -l <"$copy/built") -eq $1 ]] || fail "built $(wc -l <"$copy/built") times and not $1: $2"; }
rm "$copy/crates/layouts/out/layouts"
gives 1 "'rt', which builds it, is not on the path" without_rt
gives 0 'proves its 2 crates first' with_rt
[[ $(wc -l <"$out/stderr") -eq 1 ]] || fail "a build says more than a line: $(cat "$out/stderr")"
[[ $(cat "$out/stdout") == 'points 1 additions 0 found 0 ended' ]] || fail "the build's output came through"
gives 0 '' with_rt
times_built 1 'nothing is newer'
touch -d '+1 hour' "$copy/crates/layouts/src/main.rt"
gives 1 'older than its sources' without_rt
touch "$copy/fail"
gives 1 "'rt run' in crates/layouts failed; the log is .*/target/commands/layouts.log" with_rt
grep -q 'the reason' "$copy/target/commands/layouts.log" || fail 'the log of a failed build'
rm "$copy/fail"
gives 0 'building' with_rt
times_built 3 'the sources are newer'
touch -d '-1 hour' "$copy/crates/layouts/src"{/main.rt,}
gives 0 '' with_rt
times_built 3 'nothing is newer'

# Two at once: one builds, the other waits for it.
rm "$copy/crates/layouts/out/layouts" "$copy/running" && echo 1 >"$copy/slow"
with_rt >"$out/one" 2>"$out/words" &
until_true test -s "$copy/running"
gives 0 'another command is building' with_rt
wait "$!" || fail 'the first of two builds'
cmp "$out/one" "$out/stdout" || fail 'two builds at once'
times_built 4 'two builds at once'

# A signal during a build ends it with all its processes, and leaves nothing in the temporary folder.
killed_build() {
    rm -f "$copy/crates/layouts/out/layouts" "$copy/running" && echo 30 >"$copy/slow"
    PATH=$copy/path:$PATH env --default-signal=HUP,INT,TERM "$copy/layouts" <examples/triangle.col >"$out/part" 2>/dev/null &
    until_true has_lines 2 "$copy/running"
    whom=$!
    [[ $2 != shell ]] || whom=$(child_of "$whom")
    kill "-$1" "$whom"
    wait "$!"
}
for signal in HUP/129/script INT/130/script USR1/138/script TERM/143/script KILL/137/script KILL/1/shell; do
    IFS=/ read -r signal status whom <<<"$signal"
    gives "$status" '' killed_build "$signal" "$whom"
    while read -r process; do until_true gone "$process" || fail 'a process of the build runs on'; done <"$copy/running"
    [[ ! -s $out/part && ! -e $copy/crates/layouts/out/layouts ]] || fail 'something is written after the signal'
    until_true is_clean || clean # a shell that was killed waits for nothing
done
rm "$copy/slow"
gives 0 'building' with_rt # the lock is free again
on_a_terminal() { rm "$copy/crates/layouts/out/layouts" && PATH=$copy/path:$PATH command script -qec "$copy/layouts examples/triangle.col" /dev/null </dev/null >"$out/terminal"; }
gives 0 '' on_a_terminal
grep -q 'crate [01] of 2\(, base\)\?, 0 s so far' "$out/terminal" || fail "the line of a build: $(cat -v "$out/terminal")"

# ---- many texts: the program against the second program ----
compile -O2 tests/reference/{layouts_model,reference}.c -o "$out/model"
compile "${sanitize[@]}" -c tests/reference/reference.c -o "$out/reference.o"
for name in layouts_model graph_texts; do
    compile "${sanitize[@]}" "tests/reference/$name.c" "$out/reference.o" -o "$out/$name"
done
"$out/graph_texts" "$seed" "$texts" "$out/texts"
for ((k = 1; k <= texts; k++)); do
    "$out/model" <"$out/texts/$k" >"$out/expected/$k"
    ((k % 20 != 0)) || "$out/layouts_model" <"$out/texts/$k" | cmp - "$out/expected/$k"
done

# agrees PROGRAM: on all texts; says the first one where it does not
agrees() {
    local k
    for ((k = 1; k <= texts; k++)); do
        "$1" <"$out/texts/$k" >"$out/stdout" 2>"$out/stderr" || true
        cmp -s "$out/stdout" "$out/expected/$k" && continue
        echo "text $k of seed $seed differs (SEED=$seed TEXTS=$k shows it again). Expected and written:"
        diff -a "$out/expected/$k" "$out/stdout" | head -n 6 || true
        echo "The text begins:"
        head -c 600 "$out/texts/$k" | head -n 12 | cat -A
        return 1
    done
}
agrees crates/layouts/out/layouts >&2 || fail 'the program and the second program differ'
passed
for ((k = 1; k <= texts && k <= 30; k++)); do # the script too: the same bytes, and the status for them
    wanted=$(($(grep -c '^refused' "$out/expected/$k" || true) * 2))
    [[ $(status_of ./layouts "$out/texts/$k") -eq $wanted ]] || fail "./layouts on text $k of seed $seed: another status"
    cmp "$out/stdout" "$out/expected/$k" || fail "./layouts on text $k of seed $seed: another output"
    passed
done

# Every planted fault has to be noticed: programs that go wrong before or after the second program.
faults=0
while IFS='|' read -r name before after; do
    printf '#!/bin/sh\n%s | %s | %s\n' "${before:-cat}" "$out/model" "${after:-cat}" >"$out/faulty"
    chmod +x "$out/faulty"
    ! agrees "$out/faulty" >"$out/noticed" || fail "not noticed: $name"
    faults=$((faults + 1))
done <<'END'
vertices 1 and 2 are exchanged|sed '/^e [1-9] [1-9]$/y/12/21/'|
empty lines are skipped|sed '/^$/d'|
a carriage return at a line's end is dropped|sed 's/\r$//'|
a carriage return in a comment is refused|sed 's/^c .*\r.*/x/'|
leading zeros are taken|sed -E '/^[pe] /s/ 0+([0-9])/ \1/g'|
several spaces are taken for one|sed '/^[pe]/s/  */ /g'|
the last byte is not read|head -c -1|
an empty line follows the last line feed|{ cat; echo; }|
a text that is too long is cut|head -c 32768|
32,768 bytes are too many|{ cat >"$0.in"; if [ "$(wc -c <"$0.in")" -eq 32768 ]; then echo c >>"$0.in"; fi; cat "$0.in"; }|
the digits are written with x0 last||awk '/^[0-9]/ { digits = ""; for (k = 1; k <= length($3); k++) digits = substr($3, k, 1) digits; $3 = digits } 1'
place and point are exchanged||awk '/^[0-9]/ { $0 = $2 " " $1 " " $3 } 1'
the last layout is not written||awk '/^[0-9]/ { if (held) print held; held = $0; next } 1'
layouts come in the order of points||awk '/^[0-9]/ { print | "sort -n -k 2,2"; next } /^points/ { close("sort -n -k 2,2") } { print; fflush() }'
an addition is not counted||awk '/^points/ { $4-- } 1'
the stop is not told||sed 's/ ended$//'
the last line feed is not written||head -c -1
nothing is written||cat >/dev/null
the first text is not written||tail -n +2
no text after the first is written||head -n 1
lines are counted from 0||awk '/^refused/ && $4 > 0 { $4-- } 1'
too few e lines are told at the last line||sed 's/^refused 14 line 0$/refused 14 line 2/'
repeats are no lines|awk '!(/^e / && seen[$0]++)'|
edges are counted by lines||awk '/^vars/ { $4++ } 1'
the 65th different edge is told as a fault of its vertices||sed 's/^refused 16/refused 13/'
an e line too many is told at the end||sed 's/^refused 14 line .*$/refused 14 line 0/'
END
awk -v texts="$texts" '{ count[$1 == "vars" ? 0 : $2]++ }
    END { for (k = 10; k <= 16; k++) { if (!count[k]) exit 1; refused = refused (k > 10 ? ", " : "") k ": " count[k] }
          printf "layouts: %d texts agree (%d searched, %d refused: %s)\n", texts, count[0], texts - count[0], refused }' \
    < <(head -qn 1 "$out"/expected/*) || fail "a refusal does not occur among the texts of seed $seed"
echo "layouts: $checks checks passed, $faults planted faults noticed"
