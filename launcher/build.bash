# shellcheck shell=bash
# The build: the crates that the program stands on are proved, each once, in a copy that has them alone, by `rt ci`,
# which builds the program too. It is taken out of the copy, and the copy is let go.

GB=1000000 # in KiB, but for a fiftieth

# ---- What a build needs ----

# The free memory in KiB, under the limit of a group of processes too.
free_memory() {
    local free limit held
    free=$(awk '/^MemAvailable:/ { print $2 }' /proc/meminfo)
    limit=$(cat /sys/fs/cgroup/memory.max 2>/dev/null)
    held=$(cat /sys/fs/cgroup/memory.current 2>/dev/null)
    if [[ $limit =~ ^[0-9]+$ && $held =~ ^[0-9]+$ ]] && [ $(((limit - held) / 1024)) -lt "$free" ]; then
        free=$(((limit - held) / 1024))
    fi
    echo "$free"
}

# Sets `jobs` to how many crates are proved at once: one a processor, but two where the memory is short, and stops where
# it is too little for two.
look_at_memory() {
    local free
    free=$(free_memory)
    jobs=$(nproc 2>/dev/null || echo 1)
    [ "$free" -ge $((8 * GB)) ] && return
    [ "$free" -ge $((6 * GB)) ] ||
        stop "a build needs 6 GB of free memory, and 8 where more than two processors work: there are $((free / GB)) GB"
    [ "$jobs" -le 2 ] && return
    say "there are $((free / GB)) GB of free memory: two crates at once are proved, and not $jobs"
    export RT_JOBS=2
    jobs=2
}

# The room on the disk of a folder in KiB; none where it is memory.
free_disk() {
    if [ "$(stat -f -c %T "$1" 2>/dev/null)" = tmpfs ]; then echo 0; else df -Pk "$1" 2>/dev/null | awk 'NR == 2 { print $4 }'; fi
}

# Sets `place` to the first folder for temporary files that can be written and has room for the copy.
find_place() {
    local most=0 free
    for place in "${TMPDIR:-/var/tmp}" /var/tmp /tmp; do
        if [ ! -d "$place" ] || [ ! -w "$place" ]; then continue; fi
        free=$(free_disk "$place")
        [ "${free:-0}" -ge $((12 * GB)) ] && return
        [ "${free:-0}" -le "$most" ] || most=$free
    done
    stop "a build needs 12 GB on the disk of a folder for temporary files, and there are $((most / GB)): set TMPDIR to a folder with more"
}

# ---- The copy ----

# Puts the crates of the program, without their edits, into the folder $copy.
take_copy() {
    mkdir -p "$copy" && rows "$top" >"$copy/crates.txt" && cp "$root/HANDLES" "$copy" &&
        rows "$top" . | sed 's,/\.$,,' |
        (cd "$root" && tar -c --no-wildcards-match-slash --exclude='crates/*/out' --exclude='crates/*/must-fail' -T -) |
        tar -x -C "$copy"
}

# ---- The work ----

ended() {
    take_time
    if [ -n "$kept" ]; then
        say "ended after $minutes; what was proved is kept, and ./lotos build goes on there"
    else
        say "ended after $minutes; this rt keeps nothing, and ./lotos build proves all anew"
    fi
    exit 70
}

# Shows the end of what was said of the first crate that failed, or of all where no crate did.
show_failure() {
    local crate
    crate=$(sed -n 's/^rt: \([a-z_0-9]*\) NOT PROVED$/\1/p' "$log" | head -n 1)
    take_time
    say "the build failed after $minutes${crate:+ at the crate $crate}; the end of its log is (all of it: $log)"
    awk -v crate="$crate" '
        /^== / { is_in = $2 == crate }
        crate == "" || is_in
        /^rt: / && $2 == crate { is_in = 0 }' "$log" | tail -n 12 | sed 's/^/    /' >&2
    exit 70
}

# Says how far the build is whenever a crate is done.
tell() {
    local far
    how_far last >"$build/far"
    IFS= read -r far <"$build/far"
    [ "${far%%,*}" != "$told" ] || return
    told=${far%%,*}
    take_time
    say "$far, $minutes so far"
}

# Proves the crates of the copy and builds the program there.
prove() {
    local told
    date +%s >"$build/since"
    told="0 of $(wc -l <"$build/rows") crates are done"
    start "$copy" rt ci >"$log" 2>&1 </dev/null
    while kill -0 "$work" 2>/dev/null; do
        tell
        sleep 1
    done
    wait "$work" || { work= && show_failure; }
    work=
    [ -x "$copy/crates/$top/out/$top" ] || show_failure
}

# Takes the program out of the copy.
take_program() {
    {
        mkdir -p "${program%/*}" && cp "$copy/crates/$top/out/$top" "$program.new" &&
            touch -r "$build/begun" "$program.new" && mv -f "$program.new" "$program" && keep_sum "$build" "$1"
    } 2>/dev/null || stop "cannot write into ${program%/*}: the program that was built is lost"
}

# Takes the place of this build, or stops where another one has it.
begin() {
    { mkdir -p "$build" && [ -w "$root/crates/$top" ] && exec 9>>"$build/lock"; } 2>/dev/null ||
        stop "cannot write into $root: make it writable, or build in a copy of it"
    ! command -v flock >/dev/null || flock -n 9 || stop "another call builds the program: $(how_far)"
    # What a build that was killed has left.
    [[ $(cat "$build/room" 2>/dev/null) != */lotos-build.?????? ]] || rm -rf "$(cat "$build/room")"
    look_at_memory
    find_place
    room=$(mktemp -d "$place/lotos-build.XXXXXX") || stop "cannot write into $place"
    chmod 711 "$room"
    trap clear_up EXIT
    trap ended INT TERM HUP
    copy=$room/copy
    { echo "$room" >"$build/room" && : >"$log" && echo "$jobs" >"$build/jobs" && rows "$top" >"$build/rows" &&
        touch "$build/begun"; } 2>/dev/null || stop "cannot write into $build"
}

# Says what is begun.
announce() {
    say "proving the $(wc -l <"$build/rows") crates of the program, up to $jobs at once, and then building it (log: $log)"
    if [ -n "$kept" ]; then
        say "what passes is kept by rt: a build that is ended goes on there"
    else
        say "this rt keeps nothing: each build proves all anew"
    fi
}

# Proves what the program stands on, and builds it.
build() {
    local before jobs place copy kept=
    if [ -x "$program" ] && is_current "$program" "$build" 'src specs proofs'; then
        say "the program is built, from the text that stands here"
        return
    fi
    need_rt
    ! keeps || kept=yes
    begin
    before=$(sum "$top")
    take_copy 2>/dev/null || stop "the disk of $place is full"
    [ "$(root=$copy sum "$top")" = "$before" ] || stop "files of the program's crates were changed while they were copied: build once more"
    announce
    prove
    take_program "$before"
    take_time
    say "the program is built, after $minutes"
    [ "$(sum "$top")" = "$before" ] ||
        say "files of the program's crates were changed since the build began: it is of the text before; ./lotos build makes it anew"
}
