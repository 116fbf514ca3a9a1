# shellcheck shell=bash
# The tests. Each prints what is not as it must be, and at the end how many passed and how many failed.

passed=0
failed=0

# Does a script of .ci/ ($1) with the further words, and counts it.
try_script() {
    if "$root/.ci/$1" "${@:2}"; then
        passed=$((passed + 1))
    else
        failed=$((failed + 1))
        say ".ci/$1 failed"
    fi
}

# Prints the last line, and ends with this status, or with 1 where something failed.
count() {
    local status=$1
    [ "$failed" -eq 0 ] || [ "$status" -ne 0 ] || status=1
    echo "$passed passed, $failed failed"
    exit "$status"
}

# Does `rt ci` at the top of the repository, sets `status` to its status, and counts what it counted.
prove_all() {
    local said
    said=$(mktemp) || stop "there is no room for temporary files: set TMPDIR to a folder that can be written"
    (cd "$root" && rt ci) | tee "$said"
    status=${PIPESTATUS[0]}
    if [[ $(tail -n 1 "$said") =~ ^([0-9]+)' passed, '([0-9]+)' failed'$ ]]; then
        passed=${BASH_REMATCH[1]}
        failed=${BASH_REMATCH[2]}
    fi
    rm -f "$said"
    [ "$status" -eq 0 ] || [ "$failed" -gt 0 ] || failed=1
}

# Proves all crates, tries the edits, the tests and the programs, and then the program that was built, the pages, this
# launcher and the companions.
test_all() {
    local found status before name
    need_any_rt
    mapfile -t found < <(logics)
    [ "${found[0]}" = "${found[1]}" ] || say "this rt has '${found[0]}', and the proofs are for '${found[1]}'"
    before=$(sum "$top")
    prove_all
    if [ "$status" -ne 0 ]; then
        say "what comes behind rt ci is left out, since it failed"
        count "$status"
    fi
    [ "$(sum "$top")" != "$before" ] || { mkdir -p "$build" && keep_sum "$build" "$before"; } 2>/dev/null
    for name in statuses lines order examples flattened pages; do try_script "$name"; done
    try_script tables --check
    try_script layers --check
    for name in surface answers sizes launcher companions large; do try_script "$name"; done
    count 0
}

# Sets `tables` to the program that runs the cases over objects in memory: the proved one, or a first look.
find_tables() {
    local file flags=() first
    tables=$root/crates/case_tables/out/case_tables
    [ -x "$tables" ] && is_current "$tables" "$look/none" src && return
    for file in "$root"/crates/case_tables/data/*; do flags+=(--data "${file##*/}=$file"); done
    make_look case_tables "${flags[@]}"
    tables=$first
}

# Tries the program that stands, the proved one or else a first look: statuses, lines, all cases, the sessions of the
# examples, what the pages say, and the companions.
test_quick() {
    local tested=$program tables first name what='the proved program'
    if [ ! -x "$program" ]; then
        make_first
        tested=$first
        what='a first look, which is not proved'
    elif ! is_current "$program" "$build" src; then
        what='the proved program of an earlier text (./lotos build makes it anew)'
    fi
    find_tables
    say "this tries $what: $tested"
    case $tables in
        "$look"/*) say "the cases of objects in memory are run by a first look of case_tables" ;;
        *) say "the cases of objects in memory are run by the proved program case_tables" ;;
    esac
    for name in statuses lines order examples flattened pages; do try_script "$name" "$tested"; done
    try_script run_cases "$tested" "$tables"
    try_script tables --check
    try_script layers --check
    try_script surface
    try_script answers
    try_script sizes
    try_script companions "$tested"
    count 0
}
