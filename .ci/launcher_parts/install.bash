# shellcheck shell=bash
# The place in the PATH, of a program that a stub built.
anew
put_stub
no_calls "what comes before an install"
mkdir "$folder/bin" "$folder/other"
call install "$folder/bin"
is 'an install' 0 "$status"
has 'what is said of it' "lotos: lotos stands in $folder/bin*not in the PATH" "$err"
out=$(cd "$folder/here" && PATH=$folder/bin:$PATH lotos demo 1 </dev/null)
is 'what was installed' "program demo 1 stack $(ulimit -H -s)" "$out"
is "its version" "lotos $(cat "$source/VERSION")" "$(PATH=$folder/bin:$PATH lotos --version)"
mkdir -p "$folder/home/.local/bin"
HOME=$folder/home PATH=$folder/home/.local/bin:$PATH call install
is 'an install where the PATH looks' "0 lotos: lotos stands in $folder/home/.local/bin" "$status $err"
call install "$folder/bin"
is 'an install over the one before' 0 "$status"
echo other >"$folder/other/lotos"
call install "$folder/other"
is 'an install over another program' '70 other' "$status $(cat "$folder/other/lotos")"
call install "$folder/none"
is 'an install into no folder' "70 lotos: cannot write into $folder/none" "$status $err"
rm -rf "$house/crates/lotos_main/out"
call install "$folder/bin"
is 'an install of nothing' '70 lotos: there is no program yet: ./lotos build makes it' "$status $err"
no_calls 'an install'
