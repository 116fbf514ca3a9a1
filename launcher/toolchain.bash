# shellcheck shell=bash
# The toolchain of Rattle: whether it is there, what it can do, and how its commands are started and ended.

# Stops where there is no `rt`.
need_any_rt() {
    command -v rt >/dev/null ||
        stop "there is no rt in the PATH: install the Rattle toolchain that README.md names, and put its bin folder there"
}

# Prints the logic of this rt and the one that the proofs are for.
logics() {
    rt version 2>/dev/null | grep -om1 'logic [0-9a-f]*' || echo 'no logic'
    grep -om1 'logic [0-9a-f]\{16\}' "$root/README.md"
}

# Stops where there is no `rt`, or one of another logic than that of the README.
need_rt() {
    local found
    need_any_rt
    mapfile -t found < <(logics)
    [ "${found[0]}" = "${found[1]}" ] ||
        stop "this rt has '${found[0]}', and the proofs are for '${found[1]}': put the rt of a toolchain that README.md names first in the PATH"
}

# Whether this rt keeps what it proved for its next run. One that does not says so of `rt ci`.
keeps() {
    [[ $(rt help 2>&1 | tr -s ' \n' '  ') != *'proves every crate and its tests from nothing'* ]]
}

# Starts the named command in a folder ($1), in a group of its own, with its temporary files in $room/tmp. Programs that
# `rt ci` runs as nobody have to get there.
start() {
    local folder=$1
    shift
    [ -d "$room/tmp" ] || mkdir -m 711 "$room/tmp"
    set -m
    (cd "$folder" && TMPDIR=$room/tmp exec "$@") &
    work=$!
    set +m
}

# Ends what was started.
end_work() {
    [ -n "${work-}" ] || return
    kill -TERM -- "-$work" || kill -TERM "$work"
    wait "$work"
    work=
} 2>/dev/null

# Ends what was started, and takes its folder away.
clear_up() {
    end_work
    [ -n "${room-}" ] || return
    # What rt has started ends a moment after it.
    for _ in 1 2 3 4 5 6 7 8 9 10; do
        rm -rf "${room:?}" && [ ! -e "$room" ] && return
        sleep 0.3
    done
} 2>/dev/null
