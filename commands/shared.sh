# shellcheck shell=bash disable=SC2154,SC2317,SC1090
# bash shared.sh PARENT NAME ARGUMENTS: what every command does around its program: arguments, the first build, signals, what was
# told. PARENT is the process of commands/status.sh.
# commands/NAME.sh has the command's own words: `name` (of the command, its program and its crate), `usage`, `meaning NUMBER LINE`,
# and, where its program tells more of its end than the word "ended", `ended LINES` and `wrong LINES`.
#
# This shell waits. Its child looks at the arguments, builds the program where that is needed and then becomes it, with standard
# input and output as they were given. How it ended comes back on descriptor 3: the program tells it after its last write to
# standard output was taken. Nothing told is status 1, whatever became of the child; an end is 76 and a refusal 77, of
# which commands/status.sh makes the command's own. The program does not outlive this shell, nor this shell its parent.
set -u +o posix

home=$(dirname "$(dirname "$(readlink -f "${BASH_SOURCE[0]}")")")
[[ $PPID == "$1" ]] || exit 1 # it was killed before it could be heard of
# Whether these lines, all that was told, say that the run ended; and into `why`, why it can't have been right, or nothing. No process
# is started for that: none may be left.
ended() { [[ $# == 1 && $1 == ended ]]; }
wrong() { :; }
. "$home/commands/$2.sh" || exit 1
shift 2
program=$home/crates/$name/out/$name # where 'rt run' leaves it
place=$home/target/commands # the lock and the logs of builds

# ---- words

# To standard error; that nobody can read them changes no status.
say() { printf '%s: %s\n' "$name" "$*" >&2 2>/dev/null || :; }

# A name of the user's, with nothing in it that a terminal would obey.
shown() {
    local text=$1
    if [[ $text == *[!\ -~[:alnum:]]* ]]; then # letters of any script are shown as they are, and ASCII
        local LC_ALL=C
        text=${text@Q}
    fi
    printf '%s' "$text"
}

# Removes a line of progress, whoever wrote it.
wipe() { [[ ! -t 2 ]] || printf '\r\e[K' >&2 2>/dev/null || :; }

# ---- in the child

# To the shell that waits; descriptor 3 is the caller's until the program runs.
tell() { printf '%s\n' "$1" >&"$back"; }

die() {
    say "$@"
    tell said
    exit 1
}

# Seconds as a planner says them.
duration() { if (($1 < 60)); then echo "$1 s"; else echo "$(($1 / 60)) min $(($1 % 60)) s"; fi; }

# Whether anything that the program is made of is newer than it, or it isn't there.
outdated() {
    [[ ! -x $program ]] ||
        [[ -n $(find "$home/crates.txt" "$home/crates/"*/{src,specs,proofs} -newer "$program" -print -quit 2>/dev/null) ]]
}

# How many crates the program is made of.
crates_needed() {
    awk -F: -v want="$name" '{ sub(/#.*/, "") } NF == 2 { gsub(/[ \t]/, "", $1); needs[$1] = $2 }
        function visit(crate, list, count, k) {
            if (!(crate in needs) || crate in seen) return
            seen[crate]; total++
            count = split(needs[crate], list, " ")
            for (k = 1; k <= count; k++) visit(list[k])
        }
        END { visit(want); print total + 0 }' "$home/crates.txt"
}

room=    # a folder of the build, removed at its end
builder= # the build, leader of a group of its own

end_build() {
    local turn
    if [[ -n $builder ]]; then
        kill -TERM -- "-$builder" 2>/dev/null
        for ((turn = 0; turn < 100; turn++)); do
            kill -0 -- "-$builder" 2>/dev/null || break
            ((turn != 50)) || kill -KILL -- "-$builder" 2>/dev/null
            sleep 0.02
        done
    fi
    [[ -z $room ]] || rm -rf "$room"
    builder='' room=''
}

# The line of a build: on a terminal written over itself until the build ends, elsewhere once.
watch_build() { # LOG
    local total proved began=$SECONDS
    total=$(crates_needed)
    [[ -t 2 ]] || say "building the program, which proves its $total crates first; this takes some minutes, once"
    while kill -0 "$builder" 2>/dev/null; do
        kill -0 "$$" 2>/dev/null || { end_build && exit 1; } # nobody waits any more
        if [[ -t 2 ]]; then
            mapfile -t proved < <(sed -n 's/^crate \([a-z0-9_]*\): modules.*/\1/p' "$1")
            printf '\r%s: building, which proves the program first: crate %d of %d%s, %s so far\e[K' "$name" \
                "${#proved[@]}" "$total" "${proved[*]:+, ${proved[-1]}}" "$(duration $((SECONDS - began)))" >&2 2>/dev/null
        fi
        sleep 0.2
    done
    wipe
}

# One build at a time: who comes second waits, and finds everything built.
take_lock() {
    local waiting=0
    mkdir -p "$place" || die "$place: there is no room for a build"
    exec {lock}>"$place/lock" || die "$place/lock: the lock of the builds cannot be opened"
    until flock -n "$lock"; do
        ((waiting)) || say "another command is building; waiting for it"
        waiting=1
        sleep 0.2
    done
}

build() {
    local lock log=$place/$name.log
    command -v rt >/dev/null ||
        die "the program is not built yet, or older than its sources, and Rattle's 'rt', which builds it, is not on the path"
    trap 'end_build; exit 1' USR1 HUP TERM
    take_lock
    if outdated; then
        # rt also runs what it built, on an empty text
        room=$(mktemp -d /tmp/vayudrit.XXXXXX) || die "there is no room in /tmp"
        : >"$room/began"
        (exec {back}>&- && cd "$home/crates/$name" && TMPDIR=$room exec setsid rt run) </dev/null >"$log" 2>&1 &
        builder=$!
        watch_build "$log"
        wait "$builder" || { end_build; die "the program could not be built: 'rt run' in crates/$name failed; the log is $log"; }
        [[ -x $program ]] || { end_build; die "'rt run' in crates/$name left no program; remove the folder crates/$name/out and try again"; }
        touch -r "$room/began" "$program" # also when rt saw that nothing had really changed
        end_build
    fi
    trap - USR1 HUP TERM
    exec {lock}>&-
}

# The commit of the sources, where they are a repository of their own and no folder in another one.
commit() {
    unset GIT_DIR GIT_WORK_TREE
    cd "$home" && [[ $(git rev-parse --show-toplevel) == "$home" ]] && git describe --tags --always --dirty=', with changes'
}

# The commit or release of the sources, and the kit that proved the program.
version() {
    local source sum kit built='the program is not built yet, or older than its sources'
    source=$(commit 2>/dev/null) ||
        source=$(grep -v Format "$home/commands/release" 2>/dev/null) || source='of no known commit'
    sum=$(grep -aom 1 'rattle logic=[0-9a-f]\{16\}' "$program" 2>/dev/null) # it stands in the program itself
    sum=${sum#*=}
    kit=$(rt version 2>/dev/null) || kit=
    [[ -n $sum && $kit == *"$sum" ]] || kit="a kit with logic ${sum:-unknown}"
    outdated || built="the program was proved by $kit"
    printf '%s, Vayudrit %s\n%s\n' "$name" "$source" "$built"
}

# The file named, or nothing, in `file`; --help and --version are answered here.
take_arguments() {
    local files=() last=0
    while (($# > 0)); do
        case $last$1 in
        0-h | 0--help) usage && tell answered && exit 0 || exit 1 ;;
        0--version) version && tell answered && exit 0 || exit 1 ;;
        0--) last=1 ;;
        0-?*) die "there is no option $(shown "$1"); --help tells which there are" ;;
        *) files+=("$1") ;;
        esac
        shift
    done
    ((${#files[@]} <= 1)) || die "one file at a time; ${#files[@]} were named"
    file=${files[0]--}
}

# Standard input becomes the file, unless that is "-".
open_input() {
    local words
    words=$(shown "$file")
    if [[ $file == - ]]; then
        ((input)) || die "standard input is closed"
        [[ ! -t 0 ]] || say "the graph is read from the terminal; Ctrl-D ends it (--help tells more)"
        return
    fi
    [[ -n $file ]] || die "an empty name is that of no file"
    [[ -e $file && ! $file -ef /dev/fd/$back ]] || die "$words: there is no such file" # the second is this shell's own
    [[ ! -d $file ]] || die "$words: this is a folder and not a file"
    [[ -r $file ]] || die "$words: the file may not be read"
    exec <"$file" || die "$words: the file could not be opened"
}

# A pipe that does not wait, as standard input or output, is opened once more, now as one that does: the program would have to ask
# it again and again. What can't be opened stays as it is.
make_wait() { # DESCRIPTOR
    local self=$BASHPID info key value flags=0
    exec {info}<"/proc/self/fdinfo/$1" || return 0
    while read -r -u "$info" key value; do [[ $key != flags: ]] || flags=$value; done
    exec {info}<&-
    ((8#$flags & 8#4000)) && [[ $(readlink "/proc/$self/fd/$1") == pipe:* ]] || return 0
    case $1 in
    0) { exec </proc/self/fd/0; } 2>/dev/null ;;
    1) { exec >/proc/self/fd/1; } 2>/dev/null ;;
    esac
    return 0
}

# The child, until it is the program, which the system kills when the shell that waits is gone; where it is gone already, the
# program does not begin.
become_program() {
    local file
    ((output)) || die "standard output is closed"
    take_arguments "$@"
    open_input
    if outdated; then build; fi
    make_wait 0
    make_wait 1
    exec 3>&"$back" {back}>&-
    # shellcheck disable=SC2016
    exec setpriv --pdeathsig KILL sh -c '[ "$PPID" = "$0" ] && exec "$1"' "$$" "$program"
}

# ---- the shell that waits

# The child ends, with the build that it may be at, before this shell.
end_child() {
    local turn
    trap '' USR1 HUP TERM
    kill -USR1 "$!" 2>/dev/null
    for ((turn = 0; turn < 400; turn++)); do
        kill -0 "$!" 2>/dev/null || break
        sleep 0.01
    done
    kill -KILL "$!" 2>/dev/null
    wipe
    exit 1
}

# The status, from what was told; where nothing was, from nothing else.
judge() { # STATUS LINES
    local refused='^refused ([0-9]+) line ([0-9]+)$' where='' why='' status=$1
    shift
    if [[ $# == 1 && $1 == answered ]]; then
        exit 76
    elif ended "$@"; then
        wrong "$@"
        [[ -n $why ]] || exit 76
        say "$why"
    elif [[ $# == 1 && $1 =~ $refused ]]; then
        ((BASH_REMATCH[2] == 0)) || where="line ${BASH_REMATCH[2]}: "
        say "refused: $where$(meaning "${BASH_REMATCH[1]}" "${BASH_REMATCH[2]}") (${BASH_REMATCH[1]})"
        exit 77
    elif [[ ${1-} != said ]] && ((status != 141 || deaf)); then # where the reader is gone, it knows, unless SIGPIPE is ignored
        wipe
        case $status in
        141) say "standard output could not be written" ;;
        *) ((status <= 128)) || say "the program was ended by signal $((status - 128))" ;;
        esac
        say "the run did not end; its output is not whole"
    fi
    exit 1
}

run_command() {
    local in out back told line lines=() status input=1 output=1 key value deaf=0
    # whether the caller has SIGPIPE ignored: in the program it always is
    while read -r key value; do [[ $key != SigIgn: ]] || deaf=$((16#$value >> 12 & 1)); done <"/proc/$$/status"
    # a descriptor that is closed must not become that of another file
    [[ -e /dev/fd/0 ]] || { input=0 && exec </dev/null; }
    [[ -e /dev/fd/1 ]] || { output=0 && exec >/dev/null; }
    [[ -e /dev/fd/2 ]] || exec 2>/dev/null
    exec {in}<&0 {out}>&1
    trap end_child USR1 HUP TERM
    exec {told}< <(exec {back}>&1 <&"$in" >&"$out" {in}<&- {out}>&- && become_program "$@")
    exec {in}<&- {out}>&-
    wait "$!"
    status=$?
    while ((${#lines[@]} < 3)) && IFS= read -r -t 1 -u "$told" line; do lines+=("$line"); done
    trap '' PIPE # words that nobody reads
    judge "$status" "${lines[@]}"
}

run_command "$@"
