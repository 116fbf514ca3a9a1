# shellcheck shell=bash
# `lotos test` counts what `rt ci` counts and one for each script of .ci; `lotos test quick` tries the program that stands.

all="statuses lines order examples flattened pages tables layers surface answers sizes launcher companions large"
quick="statuses lines order examples flattened pages run_cases tables layers surface answers sizes companions"
# How many they are: those of all tests with the three that `rt ci` counts, and those of the quick ones.
# shellcheck disable=SC2086
count_all=$(($(printf '%s\n' $all | wc -l) + 3)) count_quick=$(printf '%s\n' $quick | wc -l)
for name in $all run_cases; do
    cat >"$house/.ci/$name" <<'EOF'
#!/bin/sh
name=$(basename "$0")
echo "$name $*" >>"$STUB/scripts"
[ "$name" != "$(cat "$STUB/bad" 2>/dev/null)" ]
EOF
    chmod +x "$house/.ci/$name"
done
mkdir -p "$house/crates/case_tables/src" "$house/crates/case_tables/data"
echo 'case_tables: low' >>"$house/crates.txt"
echo t.cases >"$house/crates/case_tables/data/index.txt"

# scripts NAME..: the scripts with these names were done, in this order.
scripts() {
    is 'the scripts that are done' "$*" "$(sed 's/ .*//' "$stub/scripts" 2>/dev/null | xargs)"
}

anew
rm -f "$stub"/{scripts,bad}
call test
is 'the status of all tests' 0 "$status"
is 'their last line' "$count_all passed, 0 failed" "${out##*$'\n'}"
has 'what comes first' "*said of low*3 passed, 0 failed*$count_all passed, 0 failed" "$out"
is 'where rt ci runs' "$house" "$(head -n 1 "$stub/copy")"
# shellcheck disable=SC2086
scripts $all
call check a.lotos </dev/null
is 'the program behind all tests' '3 program check a.lotos' "$status ${out%% stack*}"
rm "$stub/scripts"
echo pages >"$stub/bad"
call test
is 'a test that fails' "1 $((count_all - 1)) passed, 1 failed" "$status ${out##*$'\n'}"
has 'what is said of it' '*.ci/pages failed*' "$err"
anew
rm "$stub/scripts"
touch "$stub/fails"
call test
is 'all tests where a proof fails' '1 1 passed, 2 failed' "$status ${out##*$'\n'}"
has 'what is said of it' '*is left out*' "$err"
scripts

anew
rm "$stub/bad"
call test quick
is 'quick tests' "0 $count_quick passed, 0 failed" "$status $out"
has 'what is said of them' '*this tries a first look, which is not proved: *first_look/lotos_main*by a first look of case_tables*' "$err"
# shellcheck disable=SC2086
scripts $quick
has 'the program of quick tests' "*pages $house/build/first_look/lotos_main*" "$(cat "$stub/scripts")"
has 'how the cases are run' "*run_cases $house/build/first_look/lotos_main $house/build/first_look/case_tables*" \
    "$(cat "$stub/scripts")"
put_stub
rm "$stub"/{scripts,calls}
echo lines >"$stub/bad"
call test quick
is 'quick tests of a proved program' "1 $((count_quick - 1)) passed, 1 failed" "$status $out"
has 'what is said of them' '*this tries the proved program: *out/lotos_main*' "$err"
no_calls 'quick tests of programs that stand'
rm "$stub"/{scripts,bad}
