# shellcheck shell=bash
# What a build looks at before it starts, one that ends well, fails or is ended, and what a call costs once it stands.

# room PART SIZE: stubs that say there is so much memory (in kB), or so much room on every disk (in KiB).
room() {
    case $1 in
        memory)
            cat >"$stub/bin/awk" <<EOF
#!/bin/sh
case "\$*" in *MemAvailable*) echo $2 ;; *) exec /usr/bin/awk "\$@" ;; esac
EOF
            ;;
        disk)
            cat >"$stub/bin/df" <<EOF
#!/bin/sh
printf 'head\\nd 1 1 $2 1%% /\\n'
EOF
            ;;
    esac
    chmod +x "$stub/bin/"*
}

# refused WHAT PATTERN: a build does not begin, and says so in one line, before rt is called.
refused() {
    call build
    is "a build with $1" 70 "$status"
    has "what is said of it" "$2" "$err"
    is "lines on it" 1 "$(wc -l <"$folder/err")"
    no_calls "a build with $1"
}

anew
touch "$house/build"
refused 'a checkout that cannot be written' 'lotos: cannot write into *'
rm "$house/build"
room disk 11000000
refused 'too little room on the disk' 'lotos: a build needs 12 GB on the disk*there are 11*TMPDIR*'
room disk 12000000
room memory 5900000
refused 'too little memory' 'lotos: a build needs 6 GB of free memory*there are 5 GB'
room memory 9000000

anew
touch "$stub/fails"
call build
is 'a build that fails' 70 "$status"
has 'what is said of it' '*failed after *at the crate middle*said of middle*middle.rt: not proved*' "$err"
[[ $err != *'said of low'* && $err != *'its library'* ]] || complain "the end of the log has more: $err"

during() {
    call build
    is 'a second build' 70 "$status"
    has 'what is said of it' '*another call builds the program: 1 of 3 crates are done, about 7 more minutes' "$err"
    rm "$stub/hangs"
    call check a.lotos </dev/null
    has 'a first look meanwhile' '3 look check a.lotos*' "$status $out"
    has 'what is said of it' '*it is being built: 1 of 3 crates are done*' "$err"
}
for signal in INT TERM HUP; do
    anew
    touch "$stub/hangs"
    ended "$signal" build
    has "what is said of a build that is ended" '*ended after 0:*this rt keeps nothing*' "$(cat "$folder/ended.err")"
    during() { :; }
done
anew
echo 'rt ci [NAME..]   the merge gate: what passed is kept' >"$stub/help"
touch "$stub/hangs"
ended TERM build
has "what is said of a build that is ended, where rt keeps" '*what passes is kept*ended after 0:*what was proved is kept*' \
    "$(cat "$folder/ended.err")"
anew
touch "$stub/hangs"
on_terminal build

# A build that was killed leaves its copy, and the next one takes it away.
anew
mkdir -p "$house/build" "$folder/lotos-build.abcdef/copy"
echo "$folder/lotos-build.abcdef" >"$house/build/room"
call build
is 'a build' '0 ' "$status $out"
[ ! -e "$folder/lotos-build.abcdef" ] || complain 'a build leaves the copy of one that was killed'
has 'what is said of it' '*proving the 3 crates*keeps nothing*low is proved: 1 of 3 crates are done, about 7 more minutes*' "$err"
has 'what is said at its end' '*the program is built, after 0:*' "$err"
is 'the calls of a build' 'ci' "$(cat "$stub/calls")"
has 'the copy' "$folder/tmp/lotos-build.*/copy*lotos_main: low middle*low:*middle: low*./HANDLES*./crates.txt*" "$(cat "$stub/copy")"
[[ $(cat "$stub/copy") != *must-fail* && $(cat "$stub/copy") != *tests* ]] || complain "the copy has more: $(cat "$stub/copy")"
rm "$stub/calls"
call build
is 'a build of what is built' '0 lotos: the program is built, from the text that stands here' "$status $err"
left=$(du -sk "$house/build" | cut -f1)
[ "$left" -lt 100 ] || complain "a build leaves $left KiB"
rm "$stub/bin/df" "$stub/bin/awk"

# ---- Once it is built ----
# runs: a call runs the program, with the words, the input and all the stack, and says this.
runs() {
    call run none 'a b' with < <(printf 'menu\n')
    is 'a call' "3 program run none a b with stack $(ulimit -H -s)"$'\nmenu' "$status $out"
    # shellcheck disable=SC2254
    case $err in $1) ;; *) complain "what is said of a call: wanted $1, got $err" ;; esac
}
runs ''
touch -d '1 minute' "$house/crates/tests/src/lib.rt"
runs ''
touch -d '3 minutes' "$house/crates/middle/src/lib.rt"
runs ''
echo 'tests: low middle' >>"$house/crates.txt"
touch -d '4 minutes' "$house/crates.txt"
runs ''
echo more >>"$house/crates/middle/src/lib.rt"
touch -d '5 minutes' "$house/crates/middle/src/lib.rt"
runs 'lotos: files of *newer*lotos build*'
no_calls 'a call of the built program'
ln -s "$house/lotos" "$folder/link"
status=0
out=$(cd "$folder/here" && "$folder/link" demo 1 </dev/null 2>/dev/null) || status=$?
has 'a call through a link' '3 program demo 1*' "$status $out"

# A source that is changed while it is built.
anew
echo "$house/crates/low/src/lib.rt" >"$stub/changes"
call build
is 'a build of what is changed meanwhile' 0 "$status"
has 'what is said of it' '*the program is built*were changed since the build began*' "$err"
runs 'lotos: files of *newer*lotos build*'
