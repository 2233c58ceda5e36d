# shellcheck shell=sh disable=SC2154,SC2317
# The exit status of a command, whose `name` and `home` are set: the shell that gives it does nothing else. It is a plain one, small
# enough to live where bash no longer does, and bash, which does everything (shared.sh), may die of what it wants. Status 2 is a
# refusal that was told, 0 an output that was taken whole, and 1 anything else; the other shell has numbers of its own for the two,
# which no shell gives by itself. Whatever ends this shell before it knows gives 1, by the trap that the command has set.
# A signal ends the other shell first, then this one.

give_status() { # STATUS
    trap - EXIT
    case $1 in
    76) exit 0 ;;
    77) exit 2 ;;
    *) exit 1 ;;
    esac
}

# Those that end a process and can be caught.
signals='HUP INT QUIT ABRT USR1 USR2 PIPE ALRM TERM XCPU VTALRM PROF'

pass_on() { # SIGNAL
    # shellcheck disable=SC2086
    trap '' $signals
    kill -s USR1 "$!" 2>/dev/null
    while kill -s 0 "$!" 2>/dev/null; do wait "$!"; done
    trap - "$1" EXIT
    kill -s "$1" "$$"
    exit 1
}

# The other shell. It can catch USR1 whatever this one was given, gets it when this one is killed, and takes nothing from the
# environment that would make another shell of it.
start() { # ARGUMENTS
    exec env --default-signal=USR1 setpriv --pdeathsig USR1 bash -p "$home/commands/shared.sh" "$$" "$name" "$@"
}

for signal in $signals; do
    # shellcheck disable=SC2064
    trap "pass_on $signal" "$signal"
done
if [ -e /dev/fd/0 ]; then # what runs beside a plain shell would have no input; it is kept where the caller has nothing
    for free in 9 8 7 6 5 4 3 none; do [ -e "/dev/fd/$free" ] || break; done
    [ "$free" != none ] || { echo "$name: descriptors 3 to 9 are all in use; one has to be free" >&2 && exit 1; }
    eval "exec $free<&0"
    eval "start \"\$@\" <&$free $free<&- &"
else
    start "$@" <&- &
fi
wait "$!"
give_status "$?"
