#!/bin/sh
# Sourced by scripts that have a folder $work, and functions that may run side by side.
#
#   side_by_side NAME..   runs these functions, and returns once all have ended. There is a lane for each processor, at most four.
#                         A lane takes the first function that no lane has taken, so one processor runs them in their order.
#                         A function runs in a subshell, where $work is the function's own folder, $work/NAME. The file said of
#                         that folder has what the function prints. If a function fails, its output is shown, and the script
#                         ends with status 1.
#   said NAME             the last line that a function printed

# one NAME: a function, with a separate folder
one() {
    work=$work/$1
    "$1"
}

# lane NAME..: takes function after function
lane() {
    set +e # else the first that fails would end the lane
    for part in "$@"; do
        mkdir "$work/$part" 2>/dev/null || continue
        (
            set -e
            one "$part"
        ) >"$work/$part/said" 2>&1 </dev/null
        echo $? >"$work/$part/status"
    done
}

side_by_side() {
    # A terminal's interrupt does not reach what runs in the background.
    trap 'trap "" TERM; kill 0; exit 130' INT
    count=0
    while [ "$count" -lt "$(nproc)" ] && [ "$count" -lt 4 ]; do
        lane "$@" &
        count=$((count + 1))
    done
    wait
    trap - INT
    failed_parts=
    for part in "$@"; do
        if [ "$(cat "$work/$part/status")" != 0 ]; then
            cat "$work/$part/said"
            failed_parts="$failed_parts $part"
        fi
    done
    [ -z "$failed_parts" ] || exit 1
}

said() {
    tail -n 1 "$work/$1/said"
}
