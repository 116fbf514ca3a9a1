# shellcheck shell=bash
# How far a build is, by what `rt` has said in build/log.

log=$build/log

# Sets `minutes` to how long this call has taken.
take_time() { printf -v minutes '%d:%02d' $((SECONDS / 60)) $((SECONDS % 60)); }

# Whether another call builds the program.
is_building() {
    [ -f "$build/lock" ] && command -v flock >/dev/null && ! flock -n "$build/lock" true
}

# How far the build is: the crates that are done, and the minutes that are left by the seconds that the proof of each
# crate takes (.ci/crate_seconds): all shared among the processors, or those of the longest chain of crates if that is
# more, and longer where this machine has been slower so far. With a word, the last crate that is done is named first.
# (There is no `$(..)` here and in what calls it: some versions of bash cannot read a trap where one waits for it.)
how_far() {
    local jobs=1 since=0 now
    { IFS= read -r jobs <"$build/jobs" && IFS= read -r since <"$build/since"; } 2>/dev/null
    printf -v now '%(%s)T' -1
    awk -v jobs="$jobs" -v since="$since" -v now="$now" -v names_last="${1-}" '
        function cost(name) { return name in seconds ? seconds[name] : 60 }
        function chain(name,    words, word, longest, j) {
            if (name in known) return known[name]
            words = split(below[name], word)
            for (j = 1; j <= words; j++)
                if (word[j] in below && chain(word[j]) > longest) longest = chain(word[j])
            return known[name] = longest + (name in done ? 0 : cost(name))
        }
        function slowness(    found) {
            if (!since || spent < 300) return 1
            found = (now - since) * jobs / (spent + 45 * jobs)
            return found < 0.7 ? 0.7 : found > 5 ? 5 : found
        }
        kind == 1 { name = $1; sub(/:.*/, "", name); sub(/^[^:]*:/, ""); below[name] = $0 }
        kind == 2 && !/^#/ { seconds[$1] = $2 }
        kind == 3 && /^rt: [a-z_0-9]+ [^:]*$/ && $2 in below && !/NOT/ { if (!($2 in done)) last = $2; done[$2] }
        END {
            for (name in below) {
                count++
                if (name in done) { ended++; spent += cost(name) } else left += cost(name) / jobs
            }
            for (name in below) if (chain(name) > left) left = chain(name)
            if (names_last && last) printf "%s is proved: ", last
            printf "%d of %d crates are done, about %d more minutes\n", ended, count, left * slowness() / 60 + 1
        }' kind=1 "$build/rows" kind=2 "$root/.ci/crate_seconds" kind=3 "$log"
}
