# shellcheck shell=bash
# Words and files are looked at before two minutes are spent; a first look is built once, kept, and used until a proved
# program stands.

# ---- Words and files are looked at first ----
anew
for words in '' walk 'walk a.lotos' check 'check with' 'check a.lotos b c' 'demo' 'demo 0' 'demo 65' 'demo 1 2' \
    flatten 'flatten with' 'flatten a.lotos b c' 'flatten a.lotos with' 'flatten a.lotos with 0' \
    bisim 'bisim a.lotos b' 'bisim a.lotos b c d' 'bisim a.lotos b c with' 'bisim a.lotos b with' \
    induct 'induct a.lotos' 'induct a.lotos b c' 'induct a.lotos b with' 'build now' 'install a b' 'test now' \
    'test quick now' 'package now' '--version now'; do
    # shellcheck disable=SC2086
    call $words
    is "the words '$words'" "2 $usage" "$status $out"
done
call check $'\xff'
is "a word that is not UTF-8" "2 $usage" "$status $out"
for words in 'check none' 'run none b' 'flatten none' 'bisim a.lotos b none' 'bisim a.lotos none none' \
    'induct a.lotos none' 'induct none b' 'check a.lotos none' 'check a.lotos none with 0' 'run .'; do
    # shellcheck disable=SC2086
    call $words
    name=${words/ with 0/}
    name=${name/ b/}
    is "the words '$words'" "3 cannot read ${name##* }" "$status $out"
    is "what is said of '$words'" "" "$err"
done
call --version
is 'the version' "0 lotos $(cat "$source/VERSION")" "$status $out"
no_calls 'a call with wrong words or a missing file'

# ---- A first look ----
# looks WORD..: the kept first look answers the words, with the input and all the stack, and says once what it is.
looks() {
    call "$@" < <(printf 'menu\n')
    is "a first look at $*" "3 look $* stack $(ulimit -H -s)"$'\nmenu' "$status $out"
    has "what is said of it" '*lotos: a first look, by a program that is not proved (./lotos build makes*' "$err"
    is "how often that is said" 1 "$(grep -c 'a first look, by' <<<"$err")"
}
looks run a.lotos b with 'Succ(0)' with
has 'what is said of the first one' 'lotos: building a first look, in *' "$err"
has 'the call of a first look' 'try --steps 1 --data s.lotos=* -- run s.lotos' "$(cat "$stub/calls")"
is 'the texts of a first look' 's.lotos:text of s' "$(cat "$stub/texts")"
rm "$stub/calls"
looks run none
is 'lines on a kept first look' 1 "$(wc -l <<<"$err")"
touch -d '1 minute' "$house/crates/middle/src/lib.rt"
looks check none 'a b'
looks demo 0
no_calls 'a kept first look'
echo more >>"$house/crates/middle/src/lib.rt"
touch -d '2 minutes' "$house/crates/middle/src/lib.rt"
looks demo 7
has 'a first look at a changed text' 'try *' "$(cat "$stub/calls")"

# Two calls at once build one first look.
anew
(cd "$folder/here" && "$house/lotos" demo 1 </dev/null >"$folder/other.out" 2>"$folder/other.err") &
looks demo 2
wait $!
has 'the call beside it' 'look demo 1 *' "$(cat "$folder/other.out")"
is 'first looks of two calls at once' 1 "$(wc -l <"$stub/calls")"

# Where the checkout cannot be written, it is built and not kept.
anew
touch "$house/build"
looks demo 3
has 'what is said of it' '*it is not kept*' "$err"
rm "$house/build"

anew
touch "$stub/fails"
call check a.lotos
is 'a first look that cannot be built' '70 ' "$status $out"
has 'what is said of it' '*rt says*run=none proved=no' "$err"
[ ! -e "$house/build/first_look/lotos_main" ] || complain 'a first look that cannot be built is kept'

during() { :; }
for signal in INT TERM HUP; do
    anew
    touch "$stub/hangs"
    ended "$signal" check a.lotos
done
anew
touch "$stub/hangs"
on_terminal check a.lotos

# ---- No toolchain, or another one ----
anew
mv "$stub/bin/rt" "$stub/rt"
for words in build test 'test quick' 'check a.lotos'; do
    # shellcheck disable=SC2086
    PATH=$folder/stub/bin:/usr/bin:/bin call $words
    is "no rt for '$words'" 70 "$status"
    has "what is said of it" 'lotos: there is no rt*README*' "$err"
    is "lines on it" 1 "$(wc -l <"$folder/err")"
done
mv "$stub/rt" "$stub/bin/rt"
printf 'a-kit logic 0123456789abcdef\n' >"$stub/version"
for words in build 'test quick' 'check a.lotos'; do
    # shellcheck disable=SC2086
    call $words
    is "another logic for '$words'" 70 "$status"
    has "what is said of it" 'lotos: this rt has *0123456789abcdef*README*' "$err"
    is "lines on it" 1 "$(wc -l <"$folder/err")"
done
no_calls 'a call without the right toolchain'
