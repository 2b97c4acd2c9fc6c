#!/bin/bash
# Runs the program. At Ctrl-C a search ends and prints what it met so far, by its option --until; at another one it is
# said what is awaited, and at a third one it is killed. Arguments, the folder, the three streams and the exit status are
# passed on.
#
# The launcher reads this. Where it is installed as bin/wathread, the program is ../libexec/wathread/wathread.

# A write to a file that may grow no further (ulimit -f) is an error of the write, which is told, and no signal.
trap '' XFSZ

# Whether the words have the option --until.
has_until() {
    local it
    for it in "$@"; do
        case $it in --) return 1 ;; --until | --until=*) return 0 ;; esac
    done
    return 1
}

# Makes a folder in $1 for this user alone, and puts its path into `folder`. The path is written down, and signals are
# caught, before the folder is there, so that whatever ends this shell takes it away. From there to remove_folders no $(..)
# may stand but in a subshell: bash 5.2 can't read what it does at a signal that comes where it reads one.
folders=()
new_folder() {
    local it
    folder=$1/wathread.$$.$RANDOM$RANDOM$RANDOM
    trap remove_folders EXIT
    # shellcheck disable=SC2064 # the name of the signal is that of now
    for it in HUP INT QUIT TERM; do trap "remove_folders; kill -$it $$" $it; done
    folders+=("$folder")
    mkdir -m 700 "$folder" 2>/dev/null && return
    unset 'folders[-1]' # it may be another one's
    return 1
}

# Removes the last folder that was made, which is `folder`.
remove_folder() {
    rm -rf "$folder"
    unset 'folders[-1]'
}

# Removes all of them, at the end or before this shell becomes another program. What was killed may still write into one.
remove_folders() {
    trap '' HUP INT QUIT TERM
    [ ${#folders[@]} = 0 ] || rm -rf "${folders[@]}" 2>/dev/null || { sleep 0.2 && rm -rf "${folders[@]}"; }
    folders=()
    trap - EXIT HUP INT QUIT TERM
}

# Kills the search and exits with status $1.
kill_search() {
    trap '' INT TERM HUP QUIT
    [ "${!-}" = "$before" ] || { kill -KILL "$!"; wait "$!"; } 2>/dev/null
    exit "$1"
}

# The first time makes the file at which the search ends, the second time says what is awaited, and then kills it.
end_search() {
    woken=1 told=$((told + 1))
    case $told in
        1) : >"$folder/end" ;;
        2)
            [ ! -t 2 ] || printf '\r\033[K' >&2
            echo "wathread: the search was told to end; awaited are the step that it makes, and what it prints then;" \
                "another Ctrl-C kills it" >&2
            ;;
        *) kill_search 130 ;;
    esac
}

# Runs a search, which doesn't get Ctrl-C itself, and exits with its status. It ends if this shell does.
search() {
    local program=$1 folder before=${!-} woken='' told=0 status tether=()
    shift
    { : <&0; } 2>/dev/null && new_folder "${TMPDIR:-/tmp}" || { remove_folders && exec "$program" "$@"; }
    trap end_search INT
    trap 'kill_search 143' TERM
    trap 'kill_search 129' HUP
    trap 'kill_search 131' QUIT
    ! command -v setpriv >/dev/null || tether=(setpriv --pdeathsig KILL)
    (trap '' INT && exec "${tether[@]}" "$program" "$1" --until "$folder/end" "${@:2}") <&0 &
    until wait "$!" 2>/dev/null; status=$?; [ -z "$woken" ]; do woken=''; done
    exit "$status"
}

# Becomes the program $1 with the words that follow.
run() {
    [ "${2-}" != search ] || has_until "${@:2}" || search "$@"
    exec -a wathread "$@"
}

[ "${BASH_SOURCE[0]}" != "$0" ] || run "$(dirname "$(readlink -f "$0")")/../libexec/wathread/wathread" "$@"
