# shellcheck shell=bash
# A first look: the program without proofs, as `rt try` builds it, which checks itself as it runs. It is kept in
# build/first_look with the sum of its sources, and used until a proved program stands.

# Whether the words are a line of the usage; sets `files` to the names of files in them.
is_line() {
    local verb=$1
    files=()
    python3 -c 'import os, sys; [os.fsencode(it).decode("utf-8") for it in sys.argv]' "$@" 2>/dev/null
    [ $? -ne 1 ] || return 1
    shift
    if [ "$verb" = demo ]; then
        [ $# -eq 1 ] && [[ $1 =~ ^([1-9]|[1-5][0-9]|6[0-4])$ ]]
        return
    fi
    while [ $# -gt 0 ] && [ "$1" != with ]; do
        files+=("$1")
        shift
    done
    case $verb in
        bisim) [ $# -eq 0 ] && [ ${#files[@]} -eq 3 ] ;;
        induct) [ $# -eq 0 ] && [ ${#files[@]} -eq 2 ] ;;
        flatten) [ $# -eq 0 ] && [[ ${#files[@]} -eq 1 || ${#files[@]} -eq 2 ]] ;;
        check | run) [[ ${#files[@]} -eq 1 || ${#files[@]} -eq 2 ]] ;;
        *) return 1 ;;
    esac
}

# Ends as the program does where a file cannot be read: before a build of two minutes, and not after it.
need_file() {
    [ ! -d "$1" ] && cat -- "$1" >/dev/null 2>&1 && return
    printf 'cannot read %s\n' "$1"
    exit 3
}

# Puts the program that `rt try` builds into a file ($1), once it is linked and while it is run.
catch_program() {
    local linked
    while kill -0 "$work" 2>/dev/null; do
        linked=$(find "$room/tmp" -type f -perm -100 ! -name '*.tmp*' -print -quit 2>/dev/null)
        if [ -n "$linked" ]; then
            cp "$linked" "$1" 2>/dev/null
            return
        fi
        sleep 0.1
    done
    return 1
}

# Builds a crate's program ($1) without proofs in $room, and takes it from a run with the further words of `rt try` that
# would take long.
try_program() {
    local crate=$1
    shift
    rm -rf "$room/tmp"
    start "$root/crates/$crate" rt try --steps 1 "$@" >/dev/null 2>"$room/said"
    if ! catch_program "$room/$crate"; then
        say "the first look could not be built; rt says"
        tail -n 12 "$room/said" | sed 's/^/    /' >&2
        exit 70
    fi
    end_work
}

# Gives up the folder of this call, and its turn.
leave_room() {
    trap - EXIT INT TERM HUP
    clear_up
    exec 8>&-
} 2>/dev/null

# Sets `room` to a folder of this call, which is taken away however the call ends.
take_room() {
    [ -z "${room-}" ] || return 0
    room=$(mktemp -d) || stop "there is no room for temporary files: set TMPDIR to a folder that can be written"
    trap clear_up EXIT
    trap 'exit 70' INT TERM HUP
}

# Whether the program in this file ($1) is kept, and made from the text that stands here.
is_kept() { [ -x "$1" ] && is_current "$1" "$1.kept" src; }

# Puts a program of $room ($1) where it is kept, with the sum of its sources ($2).
keep_program() {
    local kept=$look/${1##*/}
    mkdir -p "$kept.kept" && cp "$1" "$kept.new" && mv -f "$kept.new" "$kept" && keep_sum "$kept.kept" "$2"
}

# Waits until no other call builds a first look; the lock is held until this call ends or gives it up.
take_turn() {
    command -v flock >/dev/null && mkdir -p "$look" && exec 8>>"$look/lock" || return 0
    flock -n 8 && return
    say "another call builds the first look: this one waits for it"
    flock 8
} 2>/dev/null

# Builds the first look of a program ($1) where the one that is kept is not of the text that stands here, by a run with
# the further words of `rt try`, and sets `first` to it.
make_look() {
    local crate=$1 before
    first=$look/$crate
    is_kept "$first" && return
    need_rt
    take_room
    take_turn
    is_kept "$first" && return
    say "building a first look, in some two minutes"
    before=$(sum "$crate")
    try_program "$@"
    keep_program "$room/$crate" "$before" 2>/dev/null && return
    say "it is not kept, since $look cannot be written"
    first=$room/$crate
}

# Builds the first look of the program lotos.
make_first() {
    make_look "$top" --data s.lotos="$root/crates/$top/data/s.lotos" -- run s.lotos < <(yes menu | head -n 2000000)
}

# Stops as the program would, before a build of two minutes, where the words or the files are none.
look_at_words() {
    local files file
    is_line "$@" || wrong_words
    for file in "${files[@]}"; do need_file "$file"; done
}

# Answers the words by the first look.
first_look() {
    local first note=
    is_kept "$look/$top" || look_at_words "$@"
    make_first
    is_building && note=", and it is being built: $(how_far)"
    say "a first look, by a program that is not proved (./lotos build makes the proved one$note)"
    if [ "$first" = "$look/$top" ]; then
        leave_room
        become "$first" "$@"
    fi
    (become "$first" "$@")
    exit
}
